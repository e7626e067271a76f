//! A server that sends each line back in capitals, a thread for each connection, and four clients of it.
use std::io::{BufRead, BufReader, Write};
use std::net::{TcpListener, TcpStream};
use std::thread;

fn serve(stream: TcpStream) -> std::io::Result<()> {
    let mut writer = stream.try_clone()?;
    for line in BufReader::new(stream).lines() {
        writeln!(writer, "{}", line?.to_uppercase())?;
    }
    Ok(())
}

fn ask(address: std::net::SocketAddr, number: usize) -> std::io::Result<usize> {
    let stream = TcpStream::connect(address)?;
    let (mut writer, mut reader, mut sum) = (stream.try_clone()?, BufReader::new(stream), 0);
    for line in 0..200 {
        writeln!(writer, "line {line} of {number}")?;
        let mut answer = String::new();
        sum += reader.read_line(&mut answer)?;
    }
    Ok(sum)
}

fn main() -> std::io::Result<()> {
    let listener = TcpListener::bind("127.0.0.1:0")?;
    let address = listener.local_addr()?;
    thread::spawn(move || listener.incoming().flatten().for_each(|stream| drop(thread::spawn(move || serve(stream)))));
    let clients: Vec<_> = (0..4).map(|number| thread::spawn(move || ask(address, number))).collect();
    let mut sum = 0;
    for client in clients {
        sum += client.join().unwrap()?;
    }
    println!("{sum}");
    Ok(())
}
