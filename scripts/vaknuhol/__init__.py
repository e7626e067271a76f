"""What the command vaknuhol and the scripts beside this folder are made of: a module for each idea."""
VERSION = "0.1"
