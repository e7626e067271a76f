"""What a program is: its file, instructions, blocks and source lines, and the ways between its blocks."""
