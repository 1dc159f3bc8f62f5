//! The pieces of one sheet on worker processes, some of them killed: in every bit the weights, flags and marks of one process that carries on,
//! and of each worker the count of its own runs.
#[path = "../tests/small/mod.rs"]
mod small;
use pelmetsavory::{ready, store::Error, Sheet};
use small::{all_of, piece_at, Small};
use std::collections::hash_map::RandomState;
use std::hash::{BuildHasher, Hasher};
use std::{env, fs, io::ErrorKind, path::Path, process::Command, thread::sleep, time::Duration};

/// A worker has a sheet of its own, names itself by its own number, and stores the sheet after each call.
fn work(worker: i64, path: &Path, pieces: &[String]) {
    let small = Small::new();
    let mut own = Sheet::new(&small.study());
    for p in pieces {
        own.run_piece(&small.study(), worker, piece_at(p.parse().unwrap())).unwrap();
        own.save(path).unwrap();
        sleep(Duration::from_millis(50)); // in place of a larger piece
    }
}

fn shuffle(pieces: &mut [usize]) {
    for k in (1..pieces.len()).rev() {
        pieces.swap(k, RandomState::new().build_hasher().finish() as usize % (k + 1));
    }
}

fn main() {
    if let Err(why) = ready() {
        eprintln!("{why}");
        std::process::exit(1);
    }
    let args: Vec<String> = env::args().collect();
    if args.get(1).map(String::as_str) == Some("work") {
        return work(args[2].parse().unwrap(), Path::new(&args[3]), &args[4..]);
    }
    let (small, mut killed) = (Small::new(), 0);
    let y = small.study();
    let (mut sheet, mut one) = (Sheet::new(&y), Sheet::new(&y));
    let mut marked = [0; 16]; // the pieces of each worker, by the marks of its sheets
    let folder = env::temp_dir().join(format!("pelmetsavory.{}", std::process::id()));
    loop {
        let mut open: Vec<usize> = (0..sheet.marks.len()).filter(|&p| sheet.marks[p] == 0).collect();
        if open.is_empty() {
            break;
        }
        shuffle(&mut open);
        fs::create_dir(&folder).unwrap();
        let mut jobs: Vec<_> = (0..4)
            .map(|k| {
                let share = &open[open.len() * k / 4..open.len() * (k + 1) / 4];
                Command::new(&args[0]).arg("work").arg(k.to_string()).arg(folder.join(k.to_string())).args(share.iter().map(usize::to_string)).spawn().unwrap()
            })
            .collect();
        sleep(Duration::from_millis(120));
        for job in jobs.iter_mut().take(if open.len() > 8 { 2 } else { 0 }) {
            let _ = job.kill();
        }
        for (k, job) in jobs.iter_mut().enumerate() {
            let code = job.wait().unwrap().code();
            assert!(code.is_none() || code == Some(0));
            killed += code.is_none() as u32;
            match Sheet::load(&y, &folder.join(k.to_string())) {
                Ok(mut part) => {
                    marked[k] += part.marks.iter().filter(|&&mark| mark == 1).count() as u64;
                    sheet.take(&mut part).unwrap();
                }
                Err(Error::File(e)) if e.kind() == ErrorKind::NotFound => {} // killed before its first call was stored
                Err(why) => panic!("{why}"),
            }
        }
        fs::remove_dir_all(&folder).unwrap();
    }
    one.carry_on(&y, 0).unwrap();
    for s in [&mut sheet, &mut one] {
        (0..3).for_each(|t| s.average_triplet(&y, t, &[0, 0, 2], &[0, 1, 1]).unwrap());
    }
    let (a, b) = (all_of(&sheet), all_of(&one));
    assert!(killed > 0 && (a.0, a.1, a.2) == (b.0, b.1, b.2));
    assert!(sheet.tally == marked && marked.iter().sum::<u64>() == 27);
    if let Some(path) = args.get(1) {
        sheet.save(Path::new(path)).unwrap();
    }
    println!("rust: {killed} workers killed, {} pieces, every bit as in one process; by worker {:?}", sheet.marks.len(), &sheet.tally[..4]);
}
