//! An echo of frames over loopback without a session and without journals: what the sockets alone allow. Prints how many frames a
//! second go one way and come back while the sender does not wait, and the median and the 99th percentile of the time, in
//! microseconds, that one frame takes both ways when each waits for its answer. Usage: echo COUNT BYTES

use std::io::{Read, Write};
use std::net::{TcpListener, TcpStream};
use std::time::{Duration, Instant};

fn read_frame(stream: &mut TcpStream, frame: &mut Vec<u8>) -> std::io::Result<bool> {
    let mut length = [0; 4];
    match stream.read_exact(&mut length) {
        Err(error) if error.kind() == std::io::ErrorKind::UnexpectedEof => return Ok(false),
        outcome => outcome?,
    }
    frame.resize(u32::from_be_bytes(length) as usize, 0);
    frame[..4].copy_from_slice(&length);
    stream.read_exact(&mut frame[4..])?;
    Ok(true)
}

fn serve(listener: TcpListener) -> std::io::Result<()> {
    for stream in listener.incoming().take(2) {
        let mut stream = stream?;
        stream.set_nodelay(true)?;
        let mut frame = Vec::new();
        while read_frame(&mut stream, &mut frame)? {
            stream.write_all(&frame)?;
        }
    }
    Ok(())
}

fn connect(listener: &std::net::SocketAddr) -> std::io::Result<TcpStream> {
    let stream = TcpStream::connect_timeout(listener, Duration::from_secs(5))?;
    stream.set_nodelay(true)?;
    Ok(stream)
}

fn main() -> std::io::Result<()> {
    let mut args = std::env::args().skip(1).map(|word| word.parse::<usize>().expect("a number"));
    let (count, bytes) = (args.next().expect("COUNT"), args.next().expect("BYTES"));
    let listener = TcpListener::bind("127.0.0.1:0")?;
    let address = listener.local_addr()?;
    let server = std::thread::spawn(move || serve(listener));
    let mut sent = vec![7; bytes + 4];
    let length = sent.len() as u32;
    sent[..4].copy_from_slice(&length.to_be_bytes());

    let mut stream = connect(&address)?;
    let mut writer = stream.try_clone()?;
    let line = sent.clone();
    let start = Instant::now();
    let writing = std::thread::spawn(move || (0..count).try_for_each(|_| writer.write_all(&line)));
    let mut frame = Vec::new();
    for _ in 0..count {
        assert!(read_frame(&mut stream, &mut frame)?);
    }
    let rate = count as f64 / start.elapsed().as_secs_f64();
    writing.join().expect("the writer")?;
    drop(stream);

    let mut stream = connect(&address)?;
    let mut times = Vec::with_capacity(count);
    for _ in 0..count.min(20_000) {
        let start = Instant::now();
        stream.write_all(&sent)?;
        assert!(read_frame(&mut stream, &mut frame)?);
        times.push(start.elapsed().as_secs_f64() * 1e6);
    }
    drop(stream);
    server.join().expect("the server")?;
    times.sort_by(f64::total_cmp);
    println!("{rate:.0} {:.0} {:.0}", times[times.len() / 2], times[times.len() * 99 / 100]);
    Ok(())
}
