//! One side of a case: its call, made in a loop on prepared states.

use std::arch::x86_64::_mm_lfence;
use std::hint::black_box;
use std::mem::MaybeUninit;
use std::time::Instant;

/// How often a batch's calls are made within one measured time, where a call can be repeated on its state.
const ROUNDS: usize = 16;

/// What a call works on, with its arguments.
pub trait State: Clone {
    /// How many states a batch has: few enough that what a call needs of them stays in the first-level cache.
    const BATCH: usize = 16;

    /// Puts back what a call changed.
    fn put_back(&mut self, before: &Self);
    /// Sets the statics that belong to it.
    fn set_statics(&self) {}
    /// All that it holds, in the words by which both sides are compared.
    fn words(&self) -> Vec<u64>;
}

/// A call through the pointer `function`.
pub struct Call<S, F, R> {
    /// A state in which it does what the case says.
    pub state: S,
    pub function: F,
    /// Takes the arguments from the state and makes the call.
    pub call: fn(&mut S, F) -> R,
    /// The number of the answer and the words of the result, after the call.
    pub answer: fn(&S, R) -> Vec<u64>,
}

impl<S: State + 'static, F: Copy + 'static, R: 'static> Call<S, F, R> {
    fn prepare(self) -> Box<dyn Side> {
        // The type of a function itself has no size: its calls could be inlined.
        const { assert!(size_of::<F>() >= size_of::<fn()>(), "a pointer is needed") };
        Box::new(Prepared { states: vec![self.state.clone(); S::BATCH], call: self })
    }
}

/// A case's calls.
pub struct Sides {
    pub port: Box<dyn Side>,
    /// None where RITM has no such call.
    pub rust: Option<Box<dyn Side>>,
    /// How often a batch's calls are made within one measured time.
    pub rounds: usize,
}

impl Sides {
    /// A call that both sides have, and the number of its answer.
    ///
    /// # Panics
    ///
    /// If the answers are not of this number, or are not the same.
    pub fn compared<S, F, R, S2, F2, R2>(number: u64, port: Call<S, F, R>, rust: Call<S2, F2, R2>) -> Self
    where
        S: State + 'static,
        F: Copy + 'static,
        R: 'static,
        S2: State + 'static,
        F2: Copy + 'static,
        R2: 'static,
    {
        let (port, rust) = (port.prepare(), rust.prepare());
        assert_eq!(port.held(), rust.held(), "the two states hold the same");
        let answer = port.answer(1);
        assert_eq!(answer, rust.answer(1), "both sides answer the same");
        assert_eq!(answer[0], number, "the call is accepted, or refused as the case says");
        Self { port, rust: Some(rust), rounds: 1 }
    }

    /// A call that the port alone has, and that is accepted.
    ///
    /// # Panics
    ///
    /// If it is refused.
    pub fn port_alone<S: State + 'static, F: Copy + 'static>(port: Call<S, F, u64>) -> Self {
        Self::port_answering(0, port)
    }

    /// A call that the port alone has, and the number of its answer.
    ///
    /// # Panics
    ///
    /// If the answer is not of this number.
    pub fn port_answering<S: State + 'static, F: Copy + 'static>(number: u64, port: Call<S, F, u64>) -> Self {
        let port = port.prepare();
        assert_eq!(port.answer(1)[0], number, "the call is accepted, or refused as the case says");
        Self { port, rust: None, rounds: 1 }
    }

    /// The call can be repeated on its state, and is again of the same kind.
    ///
    /// # Panics
    ///
    /// If the last call has another number than the first, or the two sides then differ.
    pub fn repeated(self) -> Self {
        let last = self.port.answer(ROUNDS);
        assert_eq!(last[0], self.port.answer(1)[0], "the last call is answered like the first");
        if let Some(rust) = &self.rust {
            assert_eq!(last, rust.answer(ROUNDS), "both sides answer the same to the last call");
        }
        Self { rounds: ROUNDS, ..self }
    }
}

/// One side of a case, whatever its types.
pub trait Side {
    /// What the state holds before the call.
    fn held(&self) -> Vec<u64>;
    /// The answer to the last of so many calls on one state, and what the state then holds.
    fn answer(&self, calls: usize) -> Vec<u64>;
    /// How many states a batch has.
    fn batch(&self) -> usize;
    /// Nanoseconds of a batch of calls. What the last batch changed is put back before.
    fn time(&mut self, rounds: usize) -> u128;
    /// Nanoseconds of the same loop with a call that does nothing.
    fn time_nothing(&mut self, rounds: usize) -> u128;
    /// Makes so many calls, each on a state of its own.
    fn call(&self, count: usize);
    /// The same with a call that does nothing.
    fn call_nothing(&self, count: usize);
}

struct Prepared<S, F, R> {
    call: Call<S, F, R>,
    states: Vec<S>,
}

impl<S: State, F: Copy, R> Side for Prepared<S, F, R> {
    fn held(&self) -> Vec<u64> {
        self.call.state.set_statics();
        self.call.state.words()
    }

    fn answer(&self, calls: usize) -> Vec<u64> {
        let mut state = self.call.state.clone();
        state.set_statics();
        let mut words = Vec::new();
        for _ in 0..calls {
            let result = (self.call.call)(&mut state, self.call.function);
            words = (self.call.answer)(&state, result);
        }
        words.extend(state.words());
        words
    }

    fn batch(&self) -> usize {
        self.states.len()
    }

    fn time(&mut self, rounds: usize) -> u128 {
        for state in &mut self.states {
            state.put_back(&self.call.state);
        }
        time_rounds(self.call.call, self.call.function, &mut self.states, rounds)
    }

    fn time_nothing(&mut self, rounds: usize) -> u128 {
        time_rounds(nothing::<S, F, R>, self.call.function, &mut self.states, rounds)
    }

    fn call(&self, count: usize) {
        call_each(self.call.call, self.call.function, &mut vec![self.call.state.clone(); count]);
    }

    fn call_nothing(&self, count: usize) {
        call_each(nothing::<S, F, R>, self.call.function, &mut vec![self.call.state.clone(); count]);
    }
}

/// A call that does nothing: the loop around it is what it costs.
fn nothing<S, F, R>(_: &mut S, _: F) -> MaybeUninit<R> {
    MaybeUninit::uninit()
}

fn time_rounds<S, F: Copy, R>(call: fn(&mut S, F) -> R, function: F, states: &mut [S], rounds: usize) -> u128 {
    let start = Instant::now();
    for _ in 0..rounds {
        call_each(call, function, states);
    }
    start.elapsed().as_nanos()
}

/// Makes the call once on each state. A result stays where the call puts it: to copy one that was just written in parts
/// would cost more than many a call. A call ends before the next begins, as it does where each comes from a trap.
#[inline(never)]
fn call_each<S, F: Copy, R>(call: fn(&mut S, F) -> R, function: F, states: &mut [S]) {
    let (call, function) = black_box((call, function));
    for state in states {
        let result = call(state, function);
        black_box(&result);
        // SAFETY: every x86-64 processor has the instruction.
        unsafe { _mm_lfence() };
    }
}
