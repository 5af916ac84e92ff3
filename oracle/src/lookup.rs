//! The lookup: from a request to its answer and its list, and the STE that is handed back.
//! Follows RULES, "From StreamID to STE", "Reading the STE" and "From SubstreamID to CD", step by step.
//! Each place where the lookup ends or takes a turn says which rule it is at, e.g. `"ste-5.bypass"`;
//! these names go into the trace, for the counts of `scripts`, and nothing here depends on them.

use std::ops::ControlFlow::{self, Break, Continue};

use crate::answer::*;
use crate::descriptors::{Cd, Kind, L1cd, L1std, Ste};
use crate::field::{entry, low_bits_as_0, word};
use crate::memory::{Failed, Memory};
use crate::refusal::{check_1, check_2, check_3, Refusal};
use crate::registers::{effective_ips, Registers};
use crate::request::Request;

/// The answer to a request, or refusal 1, 2 or 3.
pub fn lookup(registers: &Registers, memory: Memory, request: Request) -> Result<Answer, Refusal> {
    Ok(walk(registers, memory, request)?.answer)
}

/// The STE that the request reaches, as that very part of the lent memory;
/// empty where none is fetched or the lookup refuses.
pub fn part<'a>(registers: &Registers, memory: Memory<'a>, request: Request) -> &'a [u8] {
    walk(registers, memory, request).map_or(&[], |walked| walked.ste)
}

/// All that a lookup finds, and the way it took.
#[derive(Clone, Debug)]
pub struct Walked<'a> {
    pub answer: Answer,
    pub ste: &'a [u8],
    pub trace: Trace,
}

/// The rules passed and the fetches tried, in order.
#[derive(Clone, Debug, Default)]
pub struct Trace {
    pub rules: Vec<&'static str>,
    pub tries: Vec<Try>,
}

impl Trace {
    /// The descriptor of this kind, if it was fetched.
    pub fn fetched(&self, kind: Kind) -> Option<u128> {
        self.tries.iter().find(|tried| tried.kind == kind)?.word
    }
}

/// A fetch that was tried, and the word that it had, if it did not fail.
#[derive(Clone, Copy, Debug, PartialEq, Eq)]
pub struct Try {
    pub kind: Kind,
    pub address: u64,
    pub word: Option<u128>,
}

/// The lookup with its trace. Order of the refusals: 1, 2, 3.
pub fn walk<'a>(
    registers: &Registers,
    memory: Memory<'a>,
    request: Request,
) -> Result<Walked<'a>, Refusal> {
    let oas_size = check_1(registers)?;
    check_2(memory.base, memory.length())?;
    check_3(request.substream)?;
    let mut walk = Walk {
        registers,
        oas_size,
        memory,
        request,
        list: Vec::new(),
        ste: &[],
        trace: Trace::default(),
    };
    let (Break(outcome) | Continue(outcome)) = walk.outcome();
    Ok(Walked {
        answer: Answer {
            outcome,
            list: walk.list,
        },
        ste: walk.ste,
        trace: walk.trace,
    })
}

/// Goes on with a value, or breaks the lookup off with its outcome.
type Next<T> = ControlFlow<Outcome, T>;

/// A lookup on its way.
struct Walk<'r, 'a> {
    registers: &'r Registers,
    oas_size: u64,
    memory: Memory<'a>,
    request: Request,
    list: Vec<Piece>,
    ste: &'a [u8],
    trace: Trace,
}

/// A descriptor that was fetched.
struct Fetched<'a> {
    address: u64,
    bytes: &'a [u8],
    word: u128,
}

impl<'a> Walk<'_, 'a> {
    /// The whole lookup.
    fn outcome(&mut self) -> Next<Outcome> {
        self.smmu_enabled()?;
        let (ste_address, ste) = self.stream_to_ste()?;
        let index = self.read_ste(ste_address, &ste)?;
        let (cd_address, cd) = self.substream_to_cd(&ste, index)?;
        let ips = self.read_cd(&cd)?;
        Continue(Outcome::Translate(Translation {
            ste: ste_address,
            cd: cd_address,
            asid: cd.asid,
            t0sz: cd.t0sz,
            tg0: cd.tg0,
            epd0: cd.epd0,
            ips,
            ttb0: cd.ttb0,
        }))
    }

    /// Notes a rule and goes on.
    fn rule(&mut self, rule: &'static str) {
        self.trace.rules.push(rule);
    }

    /// Notes a rule and ends the lookup with the outcome that it gives.
    fn end<T>(&mut self, rule: &'static str, outcome: Outcome) -> Next<T> {
        self.rule(rule);
        Break(outcome)
    }

    /// Notes a rule and ends the lookup with an abort and its event.
    fn abort<T>(&mut self, rule: &'static str, event: Event) -> Next<T> {
        self.end(rule, Outcome::Abort(event))
    }

    /// Fetches a descriptor and puts it on the list, or ends the lookup where the fetch fails.
    fn fetch(&mut self, kind: Kind, address: u64) -> Next<Fetched<'a>> {
        let length = kind.length();
        let fetched = self.memory.fetch(address, length, self.oas_size);
        self.trace.tries.push(Try {
            kind,
            address,
            word: fetched.ok().map(word),
        });
        match fetched {
            Ok(bytes) => {
                self.list.push(Piece { address, length });
                let word = word(bytes);
                Continue(Fetched {
                    address,
                    bytes,
                    word,
                })
            }
            Err(failed) => self.fails(kind, failed),
        }
    }

    /// "F_STE_FETCH before the STE is had, F_CD_FETCH after", with the address that was wanted.
    fn fails<T>(&mut self, kind: Kind, Failed { wanted }: Failed) -> Next<T> {
        let of_ste = Event::SteFetch { wanted };
        let of_cd = Event::CdFetch { wanted };
        match kind {
            Kind::L1std => self.abort("stream-4.L1STD-fetch-fails", of_ste),
            Kind::Ste => self.abort("stream.STE-fetch-fails", of_ste),
            Kind::L1cd => self.abort("cd.L1CD-fetch-fails", of_cd),
            Kind::Cd => self.abort("cd.CD-fetch-fails", of_cd),
        }
    }

    // From StreamID to STE.

    /// Step 1.
    fn smmu_enabled(&mut self) -> Next<()> {
        if self.registers.smmuen() == 1 {
            return Continue(());
        }
        if self.registers.abort() == 1 {
            return self.end("stream-1.quiet-abort", Outcome::QuietAbort);
        }
        self.end("stream-1.global-bypass", Outcome::GlobalBypass)
    }

    /// Steps 2 to 6: the STE and its address.
    fn stream_to_ste(&mut self) -> Next<(u64, Ste)> {
        let registers = self.registers;
        let stream = u64::from(self.request.stream.0);
        // 2. The effective LOG2SIZE is at most 32.
        let log2size = registers.effective_log2size();
        if stream >= 1 << log2size {
            return self.abort("stream-2.out-of-range", Event::BadStreamId);
        }
        // 3, or 4 to 6.
        let address = if registers.st_level() == 0 {
            self.rule("stream-3.ST_LEVEL-0");
            self.linear(stream, log2size)
        } else if registers.fmt() != 1 {
            self.rule("stream-3.FMT-not-1");
            self.linear(stream, log2size)
        } else {
            self.two_level(stream, log2size)?
        };
        let fetched = self.fetch(Kind::Ste, address)?;
        self.ste = fetched.bytes;
        Continue((fetched.address, Ste::read(fetched.word)))
    }

    /// Step 3: ADDR's bits below LOG2SIZE + 6 are taken as 0.
    fn linear(&self, stream: u64, log2size: u64) -> u64 {
        let addr = low_bits_as_0(self.registers.addr(), log2size + 6);
        entry(addr, 64, stream)
    }

    /// Steps 4 to 6.
    fn two_level(&mut self, stream: u64, log2size: u64) -> Next<u64> {
        // 4. ADDR's bits N to 0 are taken as 0.
        let split = self.registers.effective_split();
        let n = 5.max((log2size + 2).saturating_sub(split));
        let addr = low_bits_as_0(self.registers.addr(), n + 1);
        let fetched = self.fetch(Kind::L1std, entry(addr, 8, stream >> split))?;
        let l1std = L1std::read(fetched.word);
        // 5.
        let low_bits = stream % (1 << split);
        let stes = match l1std.span {
            0 => return self.abort("stream-5.Span-0", Event::BadStreamId),
            1..=11 => 1 << (l1std.span - 1),
            _ => return self.abort("stream-5.Span-12-to-31", Event::BadStreamId),
        };
        if l1std.span > split + 1 {
            return self.abort("stream-5.Span-above-SPLIT+1", Event::BadStreamId);
        }
        if low_bits >= stes {
            return self.abort("stream-5.low-bits-reach", Event::BadStreamId);
        }
        // 6. L2Ptr's bits N to 0 are taken as 0, N = 5 + (Span - 1).
        self.rule("stream-6.L2Ptr");
        let n = 5 + (l1std.span - 1);
        let l2ptr = low_bits_as_0(l1std.l2ptr, n + 1);
        Continue(entry(l2ptr, 64, low_bits))
    }

    // Reading the STE.

    /// Steps 1 to 8: the first that applies, or the index of the CD to use.
    fn read_ste(&mut self, address: u64, ste: &Ste) -> Next<u64> {
        let registers = self.registers;
        let bypass = Outcome::Bypass { ste: address };
        let config_1x1 = ste.config & 0b101 == 0b101;
        let config_11x = ste.config & 0b110 == 0b110;
        // 1.
        if ste.v == 0 {
            return self.abort("ste-1.V-0", Event::BadSte);
        }
        // 2. Config 0xx.
        if ste.config & 0b100 == 0 {
            return self.end("ste-2.quiet-abort", Outcome::QuietAbort);
        }
        // 3.
        if config_1x1 && registers.s1p() == 0 {
            return self.abort("ste-3.S1P-0", Event::BadSte);
        }
        if config_11x && registers.s2p() == 0 {
            return self.abort("ste-3.S2P-0", Event::BadSte);
        }
        // 4.
        if config_11x {
            let number = STAGE_2;
            return self.end("ste-4.unserved-20", Outcome::Unserved { number });
        }
        // 5.
        if ste.config == 0b100 {
            return match self.request.substream {
                Some(_) => self.abort("ste-5.with-SubstreamID", Event::BadSubstreamId),
                None => self.end("ste-5.bypass", bypass),
            };
        }
        // 6. Config 101 from here.
        if ste.s1cdmax > registers.ssidsize() {
            return self.abort("ste-6.S1CDMax-above-SSIDSIZE", Event::BadSte);
        }
        if ste.s1cdmax > 0 {
            if ste.s1fmt == 3 {
                return self.abort("ste-6.S1Fmt-3", Event::BadSte);
            }
            if ste.s1fmt != 0 && registers.cd2l() == 0 {
                return self.abort("ste-6.S1Fmt-not-0-CD2L-0", Event::BadSte);
            }
            if ste.s1dss == 3 {
                return self.abort("ste-6.S1DSS-3", Event::BadSte);
            }
        }
        // 7.
        if registers.hyp() == 1 && ste.strw != 0 {
            let number = STREAM_WORLD;
            return self.end("ste-7.unserved-22", Outcome::Unserved { number });
        }
        // 8.
        match self.request.substream {
            Some(given) => self.with_substream(ste, given.0),
            None => self.without_substream(ste, bypass),
        }
    }

    /// Step 8 with a SubstreamID.
    fn with_substream(&mut self, ste: &Ste, substream: u64) -> Next<u64> {
        if ste.s1cdmax == 0 {
            return self.abort("ste-8.S1CDMax-0-with-SubstreamID", Event::BadSubstreamId);
        }
        if substream >= 1 << ste.s1cdmax {
            return self.abort("ste-8.SubstreamID-out-of-range", Event::BadSubstreamId);
        }
        if substream == 0 && ste.s1dss == 2 {
            return self.abort("ste-8.SubstreamID-0-S1DSS-2", Event::StreamDisabled);
        }
        self.rule("ste-8.with-SubstreamID");
        Continue(substream)
    }

    /// Step 8 without a SubstreamID. S1DSS 3 ended at step 6.
    fn without_substream(&mut self, ste: &Ste, bypass: Outcome) -> Next<u64> {
        if ste.s1cdmax == 0 {
            self.rule("ste-8.S1CDMax-0-without");
            return Continue(0);
        }
        match ste.s1dss {
            0 => self.abort("ste-8.S1DSS-0", Event::StreamDisabled),
            1 => self.end("ste-8.S1DSS-1", bypass),
            _ => {
                self.rule("ste-8.S1DSS-2");
                Continue(0)
            }
        }
    }

    // From SubstreamID to CD.

    /// The CD and its address.
    fn substream_to_cd(&mut self, ste: &Ste, index: u64) -> Next<(u64, Cd)> {
        let address = self.cd_address(ste, index)?;
        let fetched = self.fetch(Kind::Cd, address)?;
        Continue((fetched.address, Cd::read(fetched.word)))
    }

    /// Where the CD is. Neither S1ContextPtr nor L2Ptr is aligned down. S1Fmt 3 ended at step 6.
    fn cd_address(&mut self, ste: &Ste, index: u64) -> Next<u64> {
        if ste.s1cdmax == 0 {
            self.rule("cd.the-one-CD");
            return Continue(ste.s1contextptr);
        }
        let Some(leaf_bits) = ste.leaf_bits() else {
            self.rule("cd.S1Fmt-0");
            return Continue(entry(ste.s1contextptr, 64, index));
        };
        let l1cd_address = entry(ste.s1contextptr, 8, index >> leaf_bits);
        let fetched = self.fetch(Kind::L1cd, l1cd_address)?;
        let l1cd = L1cd::read(fetched.word);
        if l1cd.v == 0 {
            return self.abort("cd.L1CD-V-0", Event::BadSubstreamId);
        }
        Continue(entry(l1cd.l2ptr, 64, index % (1 << leaf_bits)))
    }

    /// The checks of the CD, in order: the effective IPS of one that is accepted.
    fn read_cd(&mut self, cd: &Cd) -> Next<u64> {
        let ttf_low = self.registers.ttf() & 0b01 != 0;
        let ttf_high = self.registers.ttf() & 0b10 != 0;
        let ips = effective_ips(cd.ips, self.oas_size);
        if cd.v == 0 {
            return self.abort("cd.V-0", Event::BadCd);
        }
        if cd.aa64 == 0 && ttf_low {
            let number = VMSAV8_32;
            return self.end("cd.AA64-0-unserved-21", Outcome::Unserved { number });
        }
        if cd.aa64 == 0 {
            return self.abort("cd.AA64-0-TTF-low-bit-clear", Event::BadCd);
        }
        if !ttf_high {
            return self.abort("cd.AA64-1-TTF-high-bit-clear", Event::BadCd);
        }
        if cd.epd0 == 1 {
            self.rule("cd.EPD0-1-accepted");
            return Continue(ips);
        }
        if cd.tg0 == 3 {
            return self.abort("cd.TG0-3", Event::BadCd);
        }
        if !self.granule_in_idr5(cd.tg0) {
            return self.abort("cd.granule-not-in-IDR5", Event::BadCd);
        }
        if cd.t0sz < 16 {
            return self.abort("cd.T0SZ-below-16", Event::BadCd);
        }
        if cd.t0sz > 39 {
            return self.abort("cd.T0SZ-above-39", Event::BadCd);
        }
        if cd.ttb0 >= 1 << ips {
            return self.abort("cd.TTB0-reaches", Event::BadCd);
        }
        self.rule("cd.accepted");
        Continue(ips)
    }

    /// TG0 0 is 4KB, 1 64KB, 2 16KB; 3 is none.
    fn granule_in_idr5(&self, tg0: u64) -> bool {
        match tg0 {
            0 => self.registers.gran4k() == 1,
            1 => self.registers.gran64k() == 1,
            2 => self.registers.gran16k() == 1,
            _ => false,
        }
    }
}
