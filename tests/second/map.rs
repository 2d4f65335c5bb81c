//! The map, the channel grid, and who may access which address.

use super::Number;

/// Half open: begin up to but without end.
#[derive(Clone, Copy, Debug, Default, PartialEq, Eq)]
pub struct Region {
    pub begin: u32,
    pub end: u32,
}

impl Region {
    #[inline]
    pub fn contains(self, address: u64) -> bool {
        u64::from(self.begin) <= address && address < u64::from(self.end)
    }

    /// Whether every one of the bytes from `first` on lies here. Callers pass at most 2^32 + 255 + 4, so the sum stays a whole number.
    #[inline]
    pub fn holds(self, first: u64, length: u64) -> bool {
        u64::from(self.begin) <= first && first + length <= u64::from(self.end)
    }

    /// "A faulted access reports the lowest denied address": of these bytes, not all of which lie here, the lowest that does not.
    #[cold]
    pub(super) fn lowest_outside(self, first: u64, length: u64) -> u64 {
        (first..first + length)
            .find(|&address| !self.contains(address))
            .unwrap_or(first)
    }

    /// "An empty region overlaps nothing."
    fn shares_an_address(self, other: Region) -> bool {
        self.begin.max(other.begin) < self.end.min(other.end)
    }

    /// Refusal 4: "begin above end, or end above memory length".
    fn test(self, length: u32) -> Result<(), Number> {
        if self.begin > self.end || self.end > length {
            return Err(4);
        }
        Ok(())
    }
}

#[derive(Clone, Copy, Debug, Default, PartialEq, Eq)]
pub struct Domain {
    pub code: Region,
    pub data: Region,
    pub entry: u32,
}

impl Domain {
    #[inline]
    pub fn may_read(&self, address: u64) -> bool {
        self.code.contains(address) || self.data.contains(address)
    }

    #[inline]
    pub fn may_write(&self, address: u64) -> bool {
        self.data.contains(address)
    }

    #[inline]
    pub fn may_fetch(&self, address: u64) -> bool {
        self.code.contains(address)
    }
}

/// Row f, column t, both from 0: domain f + 1 may send to domain t + 1.
pub type Grid = [[bool; 8]; 8];

/// The count is as wide as a caller can make it, so that a map with a count past 8 can be refused.
#[derive(Clone, Copy, Debug, Default, PartialEq, Eq)]
pub struct Map {
    pub length: u32,
    pub kernel: Region,
    pub count: u32,
    pub domains: [Domain; 8],
}

impl Map {
    /// "Count and unused entries, 3, 4 for the kernel, then 4, 5, 6 for each domain in turn, then 7."
    pub fn accept(&self, grid: &Grid) -> Result<(), Number> {
        if !(1..=8).contains(&self.count) {
            return Err(2);
        }
        let count = self.count as usize;
        if self.domains[count..]
            .iter()
            .any(|domain| *domain != Domain::default())
        {
            return Err(2);
        }
        self.test_length()?;
        self.test_kernel()?;
        for index in 0..count {
            self.test_domain(index)?;
        }
        for (from, row) in grid.iter().enumerate() {
            for (to, &mark) in row.iter().enumerate() {
                if mark && (from >= count || to >= count || from == to) {
                    return Err(7);
                }
            }
        }
        Ok(())
    }

    pub(super) fn test_length(&self) -> Result<(), Number> {
        if !(256..=65_536).contains(&self.length) {
            return Err(3);
        }
        Ok(())
    }

    pub(super) fn test_kernel(&self) -> Result<(), Number> {
        self.kernel.test(self.length)
    }

    /// 4, 5 and 6 for the domain at `index`, against the regions that stand before it.
    pub(super) fn test_domain(&self, index: usize) -> Result<(), Number> {
        let Domain { code, data, entry } = self.domains[index];
        code.test(self.length)?;
        data.test(self.length)?;
        if !code.contains(entry.into()) {
            return Err(5);
        }
        let shared = |region: Region| {
            region.shares_an_address(self.kernel)
                || self.domains[..index].iter().any(|earlier| {
                    region.shares_an_address(earlier.code) || region.shares_an_address(earlier.data)
                })
        };
        // "Its own code included": the data comes after the code within a record.
        if shared(code) || shared(data) || data.shares_an_address(code) {
            return Err(6);
        }
        Ok(())
    }

    /// Refusal 9: "lent memory not as long as the map says".
    pub(super) fn test_memory(&self, memory: &[u8]) -> Result<(), Number> {
        if memory.len() as u64 != u64::from(self.length) {
            return Err(9);
        }
        Ok(())
    }

    /// Domain `number` of an accepted map; refusal 14: "domain not 1 to N".
    fn domain(&self, number: u8) -> Result<&Domain, Number> {
        if number == 0 || u32::from(number) > self.count {
            return Err(14);
        }
        Ok(&self.domains[usize::from(number) - 1])
    }
}

pub fn may_read(map: &Map, grid: &Grid, domain: u8, address: u64) -> Result<bool, Number> {
    map.accept(grid)?;
    Ok(map.domain(domain)?.may_read(address))
}

pub fn may_write(map: &Map, grid: &Grid, domain: u8, address: u64) -> Result<bool, Number> {
    map.accept(grid)?;
    Ok(map.domain(domain)?.may_write(address))
}

pub fn may_fetch(map: &Map, grid: &Grid, domain: u8, address: u64) -> Result<bool, Number> {
    map.accept(grid)?;
    Ok(map.domain(domain)?.may_fetch(address))
}

/// "The data sub-region of domain d as that part of the caller's memory; for any refusal the empty part at the front."
pub fn view<'a>(map: &Map, grid: &Grid, memory: &'a mut [u8], domain: u8) -> &'a mut [u8] {
    match test_view(map, grid, memory, domain) {
        Ok(data) => &mut memory[data.begin as usize..data.end as usize],
        Err(_) => &mut memory[..0],
    }
}

/// The view's companion: its refusal's number, 0 where nothing is refused.
pub fn view_number(map: &Map, grid: &Grid, memory: &[u8], domain: u8) -> Number {
    test_view(map, grid, memory, domain).err().unwrap_or(0)
}

fn test_view(map: &Map, grid: &Grid, memory: &[u8], domain: u8) -> Result<Region, Number> {
    map.accept(grid)?;
    map.test_memory(memory)?;
    Ok(map.domain(domain)?.data)
}
