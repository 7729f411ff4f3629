//! A host that stores the state of its gate in a file, and goes on with it after a restart.
//!
//! It stores after each call, and before the packet goes on air: a state from before the last SENT doesn't know of that
//! packet, and must not be gone on with. Where there is no state to go on with it makes a fresh gate, and keeps a
//! second of silence. That is so when it starts for the first time, when the file is damaged or of another version, and
//! when the radio's own clock has started anew, as after a power cut.
//!
//! The radio is played: the numbers at the front of the lines are its clock.

use std::env;
use std::error::Error;
use std::fs::{self, File};
use std::io::{self, Write};
use std::path::Path;
use std::process;

use presscurlew::{Answer, Gate, Offer, Profile, Refusal, State, WhenFull};

struct Host<'a> {
    gate: Gate,
    /// Where the state is stored.
    path: &'a Path,
    /// The stamp of the first poll.
    silent_until: u32,
}

/// The gate that a file has, if it is one.
fn resumed(path: &Path) -> Result<Gate, Box<dyn Error>> {
    if !path.exists() {
        return Err("there is no stored state".into());
    }
    let state = State::from_bytes(&fs::read(path)?)?;
    Ok(Gate::resume(state)?)
}

impl<'a> Host<'a> {
    /// A host that starts at this stamp of the radio's clock. Whether that has run on since the last call, for less than 35
    /// minutes, the radio says.
    fn start(path: &'a Path, now: u32, has_run_on: bool) -> Result<Host<'a>, Refusal> {
        let stored = if has_run_on {
            resumed(path)
        } else {
            Err("the radio's clock has started anew".into())
        };
        match stored {
            Ok(gate) => {
                println!("starts: goes on with the stored state");
                Ok(Host {
                    gate,
                    path,
                    silent_until: now,
                })
            }
            Err(error) => {
                println!("starts: {error}; makes a gate, and is silent for a second");
                Ok(Host {
                    gate: Gate::new(Profile::ReactiveA1, WhenFull::DropOldest, now)?,
                    path,
                    silent_until: now.wrapping_add(Gate::SILENCE),
                })
            }
        }
    }

    /// Stores the state. The file is replaced at once, so that there is always a whole one.
    fn store(&self) -> io::Result<()> {
        let fresh = self.path.with_extension("new");
        let mut file = File::create(&fresh)?;
        file.write_all(&self.gate.state().to_bytes())?;
        file.sync_all()?;
        fs::rename(fresh, self.path)
    }

    fn offer(&mut self, id: u32, now: u32) -> Result<(), Box<dyn Error>> {
        let offer = Offer {
            id,
            priority: 0,
            ontime: 600,
            lifetime: 3_000_000,
        };
        self.gate.offer(offer, now)?;
        self.store()?;
        Ok(())
    }

    fn poll(&mut self, now: u32) -> Result<(), Box<dyn Error>> {
        // On a clock that wraps, only differences tell.
        let left = self.silent_until.wrapping_sub(now);
        if (1..=Gate::SILENCE).contains(&left) {
            println!("{now:7}  silent for {left} µs more");
            return Ok(());
        }
        let answer = self.gate.poll(now)?;
        self.store()?;
        match answer {
            // Here it goes on air: the stored state knows of it.
            Answer::Sent(packet) => println!("{now:7}  packet {} goes", packet.id),
            Answer::Closed { micros } => println!("{now:7}  closed for {micros} µs more"),
            Answer::Idle => println!("{now:7}  nothing waits"),
        }
        Ok(())
    }
}

fn run(path: &Path) -> Result<(), Box<dyn Error>> {
    let mut host = Host::start(path, 0, true)?;
    (1..=4).try_for_each(|id| host.offer(id, 10_000))?;
    host.poll(500_000)?;
    host.poll(1_000_000)?;

    // The program crashes right after that, and is back in 20 ms. Its gate knows of the packet, and what waited waits on.
    let mut host = Host::start(path, 1_020_000, true)?;
    host.poll(1_020_000)?;
    host.poll(1_100_600)?;

    // A byte of the file goes bad.
    let mut bytes = fs::read(path)?;
    bytes[500] ^= 16;
    fs::write(path, bytes)?;
    let mut host = Host::start(path, 1_150_000, true)?;
    host.offer(5, 1_150_000)?;
    host.poll(1_200_000)?;
    host.poll(2_150_000)?;

    // A power cut: the file is good, but the radio counts from 0 again.
    let mut host = Host::start(path, 0, false)?;
    host.offer(6, 0)?;
    host.poll(100)?;
    host.poll(1_000_000)
}

fn main() -> Result<(), Box<dyn Error>> {
    let name = format!("presscurlew-restart-{}.state", process::id());
    let path = env::temp_dir().join(name);
    let done = run(&path);
    fs::remove_file(path).ok();
    done
}
