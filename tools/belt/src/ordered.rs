//! Work in several threads, whose answers come in the order of its items.

use std::io;
use std::sync::Arc;
use std::sync::mpsc::{Receiver, SyncSender, sync_channel};
use std::thread;

/// Answers in order.
pub struct Answers<R> {
    /// Those of each thread, which takes every so manieth item; the last is none.
    threads: Vec<Receiver<Option<R>>>,
    next: usize,
}

/// Begins work on items in so many threads, and another that makes the items. In memory are at most three items of each:
/// one that waits, one that is worked on, one that is done.
pub fn begin<T, R>(
    threads: usize,
    items: impl Iterator<Item = T> + Send + 'static,
    work: impl Fn(T) -> R + Send + Sync + 'static,
) -> io::Result<Answers<R>>
where
    T: Send + 'static,
    R: Send + 'static,
{
    let work = Arc::new(work);
    let (mut todo, mut done) = (Vec::new(), Vec::new());
    for _ in 0..threads {
        let (give, take): (SyncSender<T>, Receiver<T>) = sync_channel(1);
        let (tell, hear) = sync_channel(1);
        let work = work.clone();
        let run = move || {
            // whoever doesn't want more answers ends the work
            let told = take.into_iter().all(|item| tell.send(Some(work(item))).is_ok());
            if told {
                let _ = tell.send(None);
            }
        };
        thread::Builder::new().spawn(run)?;
        todo.push(give);
        done.push(hear);
    }
    let read = move || {
        let _ = items.zip(todo.iter().cycle()).try_for_each(|(item, thread)| thread.send(item));
    };
    thread::Builder::new().spawn(read)?;
    Ok(Answers { threads: done, next: 0 })
}

impl<R> Iterator for Answers<R> {
    type Item = R;

    fn next(&mut self) -> Option<R> {
        let thread = &self.threads[self.next % self.threads.len()];
        self.next += 1;
        thread.recv().expect("a thread tells its end")
    }
}

#[cfg(test)]
mod tests {
    use super::*;
    use std::sync::atomic::{AtomicUsize, Ordering};
    use std::time::Duration;

    #[test]
    fn answers_come_in_order_and_items_wait() {
        static MADE: AtomicUsize = AtomicUsize::new(0);
        for threads in [1, 2, 3, 8] {
            MADE.store(0, Ordering::SeqCst);
            let items = (0..50u64).inspect(|_| {
                MADE.fetch_add(1, Ordering::SeqCst);
            });
            let work = |item: u64| {
                thread::sleep(Duration::from_micros(item * 7919 % 500));
                item * item
            };
            let mut answers = begin(threads, items, work).unwrap();
            thread::sleep(Duration::from_millis(20));
            assert!(MADE.load(Ordering::SeqCst) <= 3 * threads + 1);
            assert!((0..50).all(|item| answers.next() == Some(item * item)));
            assert_eq!(answers.next(), None);
        }
        assert_eq!(begin(2, std::iter::empty::<u8>(), |item| item).unwrap().count(), 0);
    }
}
