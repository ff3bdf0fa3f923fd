//! Why a call is refused: the numbers are those of documents 01 and 02, the words those of the project's table of refusals.
use std::error::Error;
use std::fmt;

/// Why a call on an outline, two walks, a fix, totals or a mask is refused; as a number, that of documents 01 and 02.
#[derive(Clone, Copy, Debug, PartialEq, Eq)]
#[repr(u32)]
pub enum Refusal {
    CoordinateOutsideLimits = 1,
    WrongLength = 2,
    MapOutsideLimits = 3,
    TotalsOutsideBounds = 4,
    MappedOutsideLimits = 5,
    TooManyRuns = 8,
    CentreOutsideLimits = 11,
    NoArea = 27,
    WrongMaskLength = 31,
    NotFinite = 33,
    TooFarForThirdMoments = 35,
}

impl Refusal {
    pub fn number(self) -> u32 {
        self as u32
    }

    /// `None` for 0, an accepted call.
    pub(crate) fn of(number: u32) -> Option<Refusal> {
        match number {
            0 => None,
            1 => Some(Refusal::CoordinateOutsideLimits),
            2 => Some(Refusal::WrongLength),
            3 => Some(Refusal::MapOutsideLimits),
            4 => Some(Refusal::TotalsOutsideBounds),
            5 => Some(Refusal::MappedOutsideLimits),
            8 => Some(Refusal::TooManyRuns),
            11 => Some(Refusal::CentreOutsideLimits),
            27 => Some(Refusal::NoArea),
            31 => Some(Refusal::WrongMaskLength),
            33 => Some(Refusal::NotFinite),
            35 => Some(Refusal::TooFarForThirdMoments),
            _ => other_version(number),
        }
    }

    fn meaning(self) -> &'static str {
        match self {
            Refusal::CoordinateOutsideLimits => {
                "a point lies more than 200 m east, west, north or south of the peg"
            }
            Refusal::WrongLength => {
                "a list has an x without its y, or fewer than 3 points, or over 1,024"
            }
            Refusal::MapOutsideLimits => "a number of a map is outside its limits",
            Refusal::TotalsOutsideBounds => "a total handed to a map is larger than any outline's",
            Refusal::MappedOutsideLimits => "a total after the map would pass 10^18 in size",
            Refusal::TooManyRuns => {
                "there are more than 4,096 runs, or more than the list to be filled holds"
            }
            Refusal::CentreOutsideLimits => {
                "a total that a centre is wanted of is over 10^18 in size"
            }
            Refusal::NoArea => "the area is 0, so there is no centre",
            Refusal::WrongMaskLength => {
                "a mask's number of words is no multiple of 16, or is over 16,384 (1,024 rows)"
            }
            Refusal::NotFinite => "a float is infinite or not a number",
            Refusal::TooFarForThirdMoments => {
                "a coordinate is outside -500 to 500, so there are no third moments"
            }
        }
    }
}

impl fmt::Display for Refusal {
    fn fmt(&self, f: &mut fmt::Formatter<'_>) -> fmt::Result {
        write!(f, "refusal {}: {}", self.number(), self.meaning())
    }
}

impl Error for Refusal {}

/// Why a list of runs has no totals: refusal 6 or 7 with the index, from 0, of the first run that breaks that rule (document 02, CR 8), or 8. With 7 it is the later run of two, so never run 0.
#[derive(Clone, Copy, Debug, PartialEq, Eq)]
pub enum RegionRefusal {
    BadRun(usize),
    OutOfOrder(usize),
    TooManyRuns,
}

impl RegionRefusal {
    pub fn number(self) -> u32 {
        match self {
            RegionRefusal::BadRun(_) => 6,
            RegionRefusal::OutOfOrder(_) => 7,
            RegionRefusal::TooManyRuns => 8,
        }
    }

    /// The index that comes with 6 and 7.
    fn index(self) -> Option<usize> {
        match self {
            RegionRefusal::BadRun(index) | RegionRefusal::OutOfOrder(index) => Some(index),
            RegionRefusal::TooManyRuns => None,
        }
    }

    fn meaning(self) -> &'static str {
        match self {
            RegionRefusal::BadRun(_) => {
                "a run has a row over 1,023, no length, or an end past column 1,023"
            }
            RegionRefusal::OutOfOrder(_) => {
                "a run has a lower row than the run listed before it, or has the same row and begins before that run ends"
            }
            RegionRefusal::TooManyRuns => "there are more than 4,096 runs",
        }
    }
}

impl fmt::Display for RegionRefusal {
    fn fmt(&self, f: &mut fmt::Formatter<'_>) -> fmt::Result {
        write!(f, "refusal {}", self.number())?;
        if let Some(index) = self.index() {
            write!(f, " (run {index}, counted from 0)")?;
        }
        write!(f, ": {}", self.meaning())
    }
}

impl Error for RegionRefusal {}

pub(crate) fn other_version(number: u32) -> ! {
    unreachable!("a static library of another version answered {number}")
}
