//! One step: the registers that an instruction names are there, no half that it reads is marked, its sources are gathered, its results
//! stored.

use super::decode::{Bitfield, Compare, Kind, Term};
use super::lanes::{Extend, Lanes, State};
use super::operand::{Destination, Dst, Source, Src};
use super::{bits, marks, masks, sums, Refusal, THREADS};

/// What a step did, besides what it left in the state.
pub enum Done {
    Data,
    Mask,
    /// A jump, and its offset if it was taken.
    Jump(Option<i32>),
}

/// The lanes that one step works in; each step overwrites what it uses.
pub struct Scratch {
    sources: [Lanes; 3],
    results: Lanes,
}

impl Scratch {
    pub fn new() -> Scratch {
        Scratch { sources: [[0; THREADS]; 3], results: [0; THREADS] }
    }
}

/// A run's state and the scratch of its steps.
pub struct Machine<'a> {
    pub state: State<'a>,
    pub scratch: Scratch,
}

impl Machine<'_> {
    /// Does one instruction. Refused with 5, 6 or 10, it changes nothing.
    #[inline]
    pub fn step(&mut self, kind: &Kind) -> Result<Done, Refusal> {
        match kind {
            &Kind::Mov16 { d, imm } => self.mov(d, imm as u64),
            &Kind::Mov32 { d, imm } => self.mov(d, imm as u64),
            &Kind::GetSr { d, sr } => self.get_sr(d, sr),
            Kind::Iadd(i) => {
                self.data(i.d, [i.a, i.b].map(extended), |sources, results| sums::iadd(i, sources, results))
            }
            Kind::Imadd(i) => {
                self.data(i.d, [i.a, i.b, i.c].map(extended), |sources, results| sums::imadd(i, sources, results))
            }
            Kind::Bfi(i) => self.bitfield(i, bits::bfi),
            Kind::Bfeil(i) => self.bitfield(i, bits::bfeil),
            Kind::Extr(i) => self.bitfield(i, bits::extr),
            Kind::Shlhi(i) => self.bitfield(i, bits::shlhi),
            Kind::Shrhi(i) => self.bitfield(i, bits::shrhi),
            &Kind::Asr { d, a, b } => self.two(d, (a, Extend::Sign), b, bits::asr),
            &Kind::Asrh { d, a, b } => self.two(d, (a, Extend::Sign), b, bits::asrh),
            &Kind::Bitop { d, a, b, tt } => {
                let truth = bits::truth(tt);
                self.two(d, (a, Extend::Zero), b, |a, b| bits::bitop(truth, a, b))
            }
            &Kind::Bitrev { d, a } => self.one(d, a, bits::bitrev),
            &Kind::Popcount { d, a } => self.one(d, a, bits::popcount),
            &Kind::Ffs { d, a } => self.one(d, a, bits::ffs),
            &Kind::JmpExecAny { off } => Ok(Done::Jump((self.state.mask != 0).then_some(off))),
            &Kind::JmpExecNone { off } => Ok(Done::Jump((self.state.mask == 0).then_some(off))),
            &Kind::PopExec { n, .. } => self.pop_exec(n),
            Kind::IfIcmp(i) => self.compare(i, masks::if_compares, masks::if_icmp),
            Kind::WhileIcmp(i) => self.compare(i, masks::while_compares, masks::while_icmp),
            Kind::ElseIcmp(i) => self.compare(i, masks::else_compares, masks::else_icmp),
        }
    }

    fn mov(&mut self, d: Dst, value: u64) -> Result<Done, Refusal> {
        self.data(d, [], |_, results| results.fill(value))
    }

    fn get_sr(&mut self, d: Dst, sr: u8) -> Result<Done, Refusal> {
        self.has(d.to.last_register())?;
        let words = self.state.specials.get(sr as usize).ok_or(6u8)?;
        for (result, word) in self.scratch.results.iter_mut().zip(words) {
            *result = *word as u64;
        }
        Ok(self.store(d))
    }

    #[inline]
    fn one(&mut self, d: Dst, a: Src, f: impl Fn(u64) -> u64) -> Result<Done, Refusal> {
        self.data(d, [(a, Extend::Zero)], |[a, ..], results| lanewise1(a, results, f))
    }

    #[inline]
    fn two(&mut self, d: Dst, a: (Src, Extend), b: Src, f: impl Fn(u64, u64) -> u64) -> Result<Done, Refusal> {
        self.data(d, [a, (b, Extend::Zero)], |[a, b, _], results| lanewise2(a, b, results, f))
    }

    #[inline]
    fn bitfield(&mut self, i: &Bitfield, f: impl Fn(u64, u64, u64, u64) -> u64) -> Result<Done, Refusal> {
        let mask = bits::ones(i.m);
        let sources = [i.a, i.b, i.c].map(|src| (src, Extend::Zero));
        self.data(i.d, sources, |[a, b, c], results| lanewise3(a, b, c, results, |a, b, c| f(mask, a, b, c)))
    }

    /// A data instruction: all sources are read, then `f` makes the results, then the sources with discard are marked and the active
    /// threads written.
    #[inline]
    fn data<const N: usize>(
        &mut self,
        d: Dst,
        sources: [(Src, Extend); N],
        f: impl FnOnce(&[Lanes; 3], &mut Lanes),
    ) -> Result<Done, Refusal> {
        let last = sources.iter().fold(d.to.last_register(), |last, (src, _)| last.max(src.from.last_register()));
        self.has(last)?;
        if marks::any_of(&self.state.marks_of(sources.map(|(src, _)| src)), &self.state.active) {
            return Err(10);
        }
        self.gather(sources);
        f(&self.scratch.sources, &mut self.scratch.results);
        sources.iter().for_each(|(src, _)| self.state.discard(*src));
        Ok(self.store(d))
    }

    /// Stores the results in the active threads of a destination.
    #[inline]
    fn store(&mut self, d: Dst) -> Done {
        self.state.write(d.to, self.state.mask, &self.scratch.results);
        self.state.clear(d.to);
        Done::Data
    }

    fn pop_exec(&mut self, n: u8) -> Result<Done, Refusal> {
        if marks::any(&self.state.marks[0]) {
            return Err(10);
        }
        self.state.read(Source::Half(0), Extend::Zero, &mut self.scratch.sources[0]);
        lanewise1(&self.scratch.sources[0], &mut self.scratch.results, |v| masks::pop_exec(v, n as u64));
        Ok(self.set_mask())
    }

    /// A comparison of `a` and `b` in every thread, active or not, and then `f` on its r0l. What is compared counts only in the threads
    /// where `compares` holds of r0l, so the marks are looked at in these.
    #[inline]
    fn compare(
        &mut self,
        i: &Compare,
        compares: impl Fn(u64, u64) -> bool,
        f: impl Fn(u64, u64, bool) -> u64,
    ) -> Result<Done, Refusal> {
        self.has(i.a.from.last_register().max(i.b.from.last_register()))?;
        self.state.read(Source::Half(0), Extend::Zero, &mut self.scratch.sources[2]);
        let marks = self.state.marks_of([i.a, i.b]);
        let comparing = || self.scratch.sources[2].map(|r0l| if compares(r0l, i.n as u64) { 0xFF } else { 0 });
        if marks::any(&self.state.marks[0]) || marks::any(&marks) && marks::any_of(&marks, &comparing()) {
            return Err(10);
        }
        let extend = i.condition.signed.into();
        self.gather([(i.a, extend), (i.b, extend)]);
        let [a, b, r0l] = &self.scratch.sources;
        let holds = masks::compare(i.condition, a, b);
        for t in 0..THREADS {
            self.scratch.results[t] = f(r0l[t], i.n as u64, holds[t]);
        }
        [i.a, i.b].into_iter().for_each(|src| self.state.discard(src));
        Ok(self.set_mask())
    }

    /// Stores the results in r0l of every thread and makes exactly the threads active that have 0 there.
    fn set_mask(&mut self) -> Done {
        self.state.write(Destination::Half(0), u32::MAX, &self.scratch.results);
        self.state.clear_r0l();
        self.state.mask = masks::where_zero(&self.scratch.results);
        self.state.active = marks::set_in(self.state.mask);
        Done::Mask
    }

    #[inline]
    fn gather<const N: usize>(&mut self, sources: [(Src, Extend); N]) {
        for (lanes, (src, extend)) in self.scratch.sources.iter_mut().zip(&sources) {
            self.state.read(src.from, *extend, lanes);
        }
    }

    #[inline]
    fn has(&self, register: u8) -> Result<(), Refusal> {
        if (register as usize) < self.state.registers.len() {
            Ok(())
        } else {
            Err(5)
        }
    }
}

#[inline]
fn extended(term: Term) -> (Src, Extend) {
    (term.src, term.signed.into())
}

#[inline]
fn lanewise1(a: &Lanes, results: &mut Lanes, f: impl Fn(u64) -> u64) {
    for t in 0..THREADS {
        results[t] = f(a[t]);
    }
}

#[inline]
pub fn lanewise2(a: &Lanes, b: &Lanes, results: &mut Lanes, f: impl Fn(u64, u64) -> u64) {
    for t in 0..THREADS {
        results[t] = f(a[t], b[t]);
    }
}

#[inline]
pub fn lanewise3(a: &Lanes, b: &Lanes, c: &Lanes, results: &mut Lanes, f: impl Fn(u64, u64, u64) -> u64) {
    for t in 0..THREADS {
        results[t] = f(a[t], b[t], c[t]);
    }
}
