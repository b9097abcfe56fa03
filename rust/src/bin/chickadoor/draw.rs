//! States, targets and operations drawn from a seed, for holding the explanations against the library.
use chickadoor::{Asids, Company, ExecuteError, Flags, Granule, Name, Operation, Regime, Security, Share, State, Table, Target};

pub struct Draw(u64);

impl Draw {
    pub fn new(seed: u64) -> Self {
        Draw(seed.wrapping_mul(0x9e37_79b9_7f4a_7c15) | 1)
    }

    pub fn below(&mut self, n: u64) -> u64 {
        self.0 ^= self.0 << 13;
        self.0 ^= self.0 >> 7;
        self.0 ^= self.0 << 17;
        (self.0 >> 20) % n
    }

    fn flag(&mut self) -> bool {
        self.below(2) == 1
    }

    /// True but for once in eight times.
    fn mostly(&mut self) -> bool {
        self.below(8) != 0
    }

    fn rarely(&mut self) -> bool {
        self.below(8) == 0
    }

    fn pick<T: Copy>(&mut self, from: &[T]) -> T {
        from[self.below(from.len() as u64) as usize]
    }

    pub fn state(&mut self) -> State {
        let mut s = State { el: self.pick(&[0, 1, 1, 1, 2, 2, 3, 3, 4, 255]), vmid: self.below(3) as u16, ..State::default() };
        s.present.el2 = self.mostly();
        s.present.el3 = self.mostly();
        s.features.tlbirange = self.mostly();
        s.features.tlbios = self.mostly();
        s.features.d128 = self.mostly();
        s.features.xs = self.mostly();
        s.features.rme = self.flag();
        s.features.sel2 = self.flag();
        s.features.fgt = self.flag();
        s.features.hcx = self.flag();
        s.scr.ns = self.mostly();
        s.scr.nse = self.flag();
        s.scr.eel2 = self.flag();
        s.scr.fgten = self.flag();
        s.scr.hxen = self.flag();
        s.hcr.e2h = self.flag();
        s.hcr.tge = self.flag();
        s.hcr.ttlb = self.rarely();
        s.hcr.ttlbis = self.rarely();
        s.hcr.ttlbos = self.rarely();
        s.hcr.nv = self.flag();
        s.hcrx.fgtnxs = self.flag();
        for flags in [&mut s.traps.rvae1, &mut s.traps.rvaae1, &mut s.traps.rvale1, &mut s.traps.rvaale1] {
            *flags = Flags { local: self.rarely(), inner: self.rarely(), outer: self.rarely() };
        }
        s.board.count = if self.rarely() { self.pick(&[0, 9, 255]) } else { 1 + self.below(8) as u8 };
        s.board.own = self.below(u64::from(s.board.count) + 1) as u8;
        for place in 0..8 {
            s.board.inner[place] = self.below(6) as u8;
            s.board.outer[place] = if self.rarely() { self.below(3) as u8 } else { s.board.inner[place] / 2 };
        }
        s
    }

    pub fn target(&mut self) -> Target {
        let edges =
            [0, 1, 0x4000_0000, (1 << 55) - 1, 1 << 55, (1 << 56) - 1, 1 << 56, 0xff7f_ffff_ffff_ffff, 0xff80_0000_0000_0000, u64::MAX];
        let mut first = self.pick(&edges);
        let mut last = self.pick(&edges);
        if self.mostly() && first > last {
            std::mem::swap(&mut first, &mut last);
        }
        Target {
            company: Company {
                regime: self.pick(&[Regime::El10, Regime::El20, Regime::El2, Regime::El3]),
                security: self.pick(&[Security::Secure, Security::NonSecure, Security::Realm, Security::Root]),
                vmid: if self.mostly() { 0 } else { 7 },
                stage2: self.rarely(),
                ns: self.rarely(),
            },
            wide: self.flag(),
            granule: self.pick(&[Granule::K4, Granule::K16, Granule::K64]),
            asids: if self.mostly() { Asids::All } else { Asids::One(5) },
            leaves: self.flag(),
            processors: self.pick(&[0, 1, 1, 1, 1, 3, 5, 255]),
            first,
            last,
        }
    }

    pub fn operation(&mut self) -> Operation {
        Operation {
            name: self.pick(&Name::ALL),
            share: self.pick(&Share::ALL),
            nxs: self.flag(),
            tlbip: self.flag(),
            rt: self.pick(&[0, 0, 2, 5, 30, 31]),
        }
    }

    pub fn executed(&mut self, state: &State, operation: &Operation) -> Result<usize, ExecuteError> {
        let step = operation.step(0x0000_4000_0004_0000, 0x40000).expect("a register below 32");
        Table::new(&mut []).execute(state, step)
    }
}
