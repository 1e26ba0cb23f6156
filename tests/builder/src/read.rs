//! Campus files read back, by their layout alone.

use crate::campus::{Campus, Hold, Lease, Name, Release, Scope};

/// The octets that are left.
struct Octets<'a>(&'a [u8]);

impl<'a> Octets<'a> {
    fn take(&mut self, count: usize) -> Option<&'a [u8]> {
        let (front, behind) = self.0.split_at_checked(count)?;
        self.0 = behind;
        Some(front)
    }

    fn u8(&mut self) -> Option<u8> {
        Some(self.take(1)?[0])
    }

    fn u32(&mut self) -> Option<u32> {
        Some(u32::from_be_bytes(self.take(4)?.try_into().ok()?))
    }

    /// A length(1) and as many octets.
    fn counted(&mut self) -> Option<Vec<u8>> {
        let length = self.u8()?;
        Some(self.take(length.into())?.to_vec())
    }

    /// A count(1) and as many entries.
    fn list<T>(&mut self, entry: impl FnMut(&mut Self) -> Option<T>) -> Option<Vec<T>> {
        let count = self.u8()?;
        self.entries(count.into(), entry)
    }

    fn entries<T>(
        &mut self,
        count: usize,
        mut entry: impl FnMut(&mut Self) -> Option<T>,
    ) -> Option<Vec<T>> {
        (0..count).map(|_| entry(self)).collect()
    }
}

impl Campus {
    /// The campus of a file whose layout is right, whatever else may be wrong with it.
    pub fn read(file: &[u8]) -> Option<Campus> {
        let mut octets = Octets(file);
        if octets.u8()? != 1 {
            return None;
        }
        let (server, clock) = (octets.u32()?, octets.u32()?);
        let houses = octets.list(|octets| Some((octets.u32()?, octets.u32()?)))?;
        let mut scopes = octets.list(|octets| scope(octets, houses.len()))?;
        let leases = octets.list(lease)?;
        let mut names = octets.list(|octets| {
            let list = |octets: &mut Octets| octets.list(name);
            octets.entries(1 + houses.len(), list)
        })?;
        if names.len() != scopes.len() {
            return None;
        }
        for (scope, names) in scopes.iter_mut().zip(names.drain(..)) {
            scope.names = names;
        }
        let releases = octets.list(release)?;
        let holds = octets.list(hold)?;
        octets.0.is_empty().then_some(Campus {
            server,
            clock,
            houses,
            scopes,
            leases,
            releases,
            holds,
        })
    }
}

fn scope(octets: &mut Octets, houses: usize) -> Option<Scope> {
    Some(Scope {
        lowest: octets.u32()?,
        size: octets.u8()?,
        ttl: octets.u8()?,
        parts: octets.entries(houses, |octets| Some((octets.u8()?, octets.u8()?)))?,
        names: Vec::new(),
    })
}

fn lease(octets: &mut Octets) -> Option<Lease> {
    Some(Lease {
        house: octets.u8()?,
        scope: octets.u8()?,
        identifier: octets.counted()?,
        kind: octets.u8()?,
        transaction: octets.u32()?,
        start: octets.u32()?,
        end: octets.u32()?,
        offsets: octets.counted()?,
    })
}

fn name(octets: &mut Octets) -> Option<Name> {
    Some(Name {
        flags: octets.u8()?,
        tag: octets.counted()?,
        text: octets.counted()?,
    })
}

fn release(octets: &mut Octets) -> Option<Release> {
    Some(Release {
        house: octets.u8()?,
        identifier: octets.counted()?,
        transaction: octets.u32()?,
        time: octets.u32()?,
    })
}

fn hold(octets: &mut Octets) -> Option<Hold> {
    Some(Hold {
        lease: lease(octets)?,
        lapse: octets.u32()?,
    })
}
