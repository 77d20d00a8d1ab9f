//! Calls that the rules refuse: every check at its edge, then any faults at once.

use judge::case::{Settings, CHANNELS, MAX_PIXELS};
use judge::cases;
use judge::rng::Rng;

use super::{lending, Difference};
use crate::buffers::Lengths;
use crate::call::Call;
use crate::refusals;

/// Sets the draws apart from those for the other cases.
const DRAWS: u64 = 0x5eed_0002;

/// Shifts outside 0 to 7; some of them have a low byte or a low half inside.
const SHIFTS: [i32; 13] = [
    -1,
    8,
    i32::MIN,
    i32::MAX,
    9,
    31,
    32,
    36,
    256,
    260,
    -252,
    65_540,
    i32::MIN + 4,
];

/// Sizes of which a side is 0.
const EMPTY: [(u32, u32); 6] = [
    (0, 3),
    (2, 0),
    (0, 0),
    (0, 65_001),
    (0, u32::MAX),
    (u32::MAX, 0),
];

/// Sizes above the limit whose buffers can be lent in full.
const ABOVE: [(u32, u32); 5] = [
    (65_001, 1),
    (1, 65_001),
    (251, 259),
    (255, 255),
    (21_667, 3),
];

/// Sizes whose product, cut to 32 bits, is below the limit.
const WRAPPED: [(u32, u32); 8] = [
    (1 << 16, 1 << 16),
    (1 << 31, 2),
    ((1 << 31) + 1, 2),
    (2, (1 << 31) + 3),
    (641, 6_700_417),
    (6_700_417, 641),
    (u32::MAX, u32::MAX),
    (u32::MAX, u32::MAX - 5),
];

/// A call as far as the checks read it.
#[derive(Clone, Debug)]
struct Request {
    settings: Settings,
    width: u32,
    height: u32,
    bytes: usize,
    lent: Lengths,
    /// The length of the picture.
    picture: usize,
}

impl Request {
    /// A request whose bytes, buffers and picture fit `pixels`.
    fn fitting((width, height): (u32, u32), pixels: u32) -> Self {
        let bytes = CHANNELS * pixels as usize;
        Self {
            settings: Settings::default(),
            width,
            height,
            bytes,
            lent: Lengths::exact(pixels as usize),
            picture: bytes,
        }
    }

    /// A request that fits its own size, which is not far above the limit.
    fn sound((width, height): (u32, u32)) -> Self {
        Self::fitting((width, height), width * height)
    }

    /// The request with another shift.
    fn shifted(mut self, shift: i32) -> Self {
        self.settings.is_same_color_a = shift;
        self
    }

    /// The request with another number of bytes.
    fn sized(mut self, bytes: usize) -> Self {
        self.bytes = bytes;
        self
    }

    /// The request with another length of the picture.
    fn painting(mut self, picture: usize) -> Self {
        self.picture = picture;
        self
    }

    /// The request with another length for one of the five buffers.
    fn lending(mut self, buffer: usize, length: impl Fn(usize) -> usize) -> Self {
        let place = &mut *self.lent.each_mut()[buffer];
        *place = length(*place);
        self
    }

    /// The numbers that must be answered, without and with painting.
    fn numbers(&self) -> [u32; 2] {
        let (shift, size) = (self.settings.is_same_color_a, (self.width, self.height));
        [
            refusals::run(shift, size, self.bytes, self.lent),
            refusals::run_and_paint(shift, size, self.bytes, self.lent, self.picture),
        ]
    }

    fn is_refused(&self) -> bool {
        self.numbers()[1] != 0
    }
}

/// The calls that are tried.
pub struct Requests {
    seed: u64,
    edges: Vec<Request>,
}

impl Requests {
    /// The edges, followed by random ones under `seed`.
    pub fn new(seed: u64) -> Self {
        Self {
            seed,
            edges: [edges_of_size(), edges_of_lengths(), faults_at_once()].concat(),
        }
    }

    /// Compares the request at `index`.
    pub fn compare(&self, index: u64) -> Result<(), Difference> {
        let rng = &mut Rng::for_case(self.seed ^ DRAWS, index);
        let request = self.request(rng, index);
        let image = vec![rng.bits() as u8; request.bytes];
        let lent = lending::any_content(rng, request.lent);
        let call = Call {
            settings: &request.settings,
            action: rng.pick(&[0, 1, u32::MAX]),
            width: request.width,
            height: request.height,
            image: &image,
        };
        let picture = lending::bytes(request.picture);
        super::refused(&call, &lent, &picture, request.numbers())
    }

    fn request(&self, rng: &mut Rng, index: u64) -> Request {
        match self.edges.get(index as usize) {
            Some(edge) => edge.clone(),
            None => random(rng),
        }
    }
}

/// Checks 1, 2 and 3, each in a request that fails no other, as far as there is one.
fn edges_of_size() -> Vec<Request> {
    let sound = || Request::sound((2, 3));
    let shifts = SHIFTS.map(|shift| sound().shifted(shift));
    let empty = EMPTY.map(|size| Request::fitting(size, 0));
    let above = ABOVE.map(Request::sound);
    let wrapped = WRAPPED.map(|size| Request::fitting(size, size.0.wrapping_mul(size.1)));
    [&shifts[..], &empty, &above, &wrapped].concat()
}

/// Checks 4, 5 and 6, on small images and on the largest.
fn edges_of_lengths() -> Vec<Request> {
    let mut requests = Vec::new();
    for size in [(1, 1), (2, 3), (250, 260), (65_000, 1)] {
        let sound = Request::sound(size);
        let (bytes, pixels) = (sound.bytes, sound.lent.labels);
        let wrong = [0, pixels, 3 * pixels, bytes - 1, bytes + 1, bytes + 4];
        requests.extend(wrong.map(|bytes| sound.clone().sized(bytes)));
        for buffer in 0..5 {
            requests.push(sound.clone().lending(buffer, |length| length - 1));
            requests.push(sound.clone().lending(buffer, |_| 0));
        }
        requests.extend(wrong.map(|bytes| sound.clone().painting(bytes)));
    }
    requests
}

/// Every two or more of the checks failed at once, as far as they can be.
fn faults_at_once() -> Vec<Request> {
    let mut requests = Vec::new();
    for size in [(2, 3), (0, 3), (65_536, 65_536)] {
        for shift in [4, 8] {
            for (bytes, picture) in [(24, 24), (23, 24), (24, 23), (23, 23)] {
                let request = Request::fitting(size, 6).shifted(shift).sized(bytes);
                let request = request.painting(picture);
                for buffer in 0..5 {
                    requests.push(request.clone().lending(buffer, |length| length - 1));
                }
                requests.push(request);
            }
        }
    }
    requests.retain(Request::is_refused);
    requests
}

/// A random request with at least one fault, most often with several.
fn random(rng: &mut Rng) -> Request {
    loop {
        let size = (rng.range(1, 12), rng.range(1, 12));
        let mut request = Request::sound(size);
        request.settings = cases::mixed(rng.bits(), 0).settings;
        for fault in Fault::ALL {
            if rng.percent(40) {
                fault.put(rng, &mut request);
            }
        }
        if request.is_refused() {
            return request;
        }
    }
}

/// What can be wrong with a request.
#[derive(Clone, Copy)]
enum Fault {
    Shift,
    Size,
    Bytes,
    Lengths,
    Picture,
}

impl Fault {
    const ALL: [Fault; 5] = [
        Fault::Shift,
        Fault::Size,
        Fault::Bytes,
        Fault::Lengths,
        Fault::Picture,
    ];

    /// Puts a random fault of this kind in.
    fn put(self, rng: &mut Rng, request: &mut Request) {
        match self {
            Fault::Shift => request.settings.is_same_color_a = bad_shift(rng),
            Fault::Size => put_bad_size(rng, request),
            Fault::Bytes => request.bytes = near(rng, request.bytes),
            Fault::Lengths => {
                for length in request.lent.each_mut() {
                    if rng.percent(40) {
                        *length = rng.pick(&[0, *length / 2, length.saturating_sub(1)]);
                    }
                }
            }
            Fault::Picture => request.picture = near(rng, request.picture),
        }
    }
}

fn bad_shift(rng: &mut Rng) -> i32 {
    if rng.percent(70) {
        rng.pick(&SHIFTS)
    } else {
        rng.bits() as i32
    }
}

/// A number that is near `length`, most often another one.
pub fn near(rng: &mut Rng, length: usize) -> usize {
    let below = rng.pick(&[0, length / 4, length - length / 4, length.saturating_sub(1)]);
    rng.pick(&[below, length + 1, length + 4, 2 * length])
}

/// Makes a side 0, or the image too large; the lengths still fit the size before, mostly.
fn put_bad_size(rng: &mut Rng, request: &mut Request) {
    let size = bad_size(rng, (request.width, request.height));
    (request.width, request.height) = size;
    let product = u64::from(size.0) * u64::from(size.1);
    if product < 2 * MAX_PIXELS && rng.percent(5) {
        let fitting = Request::fitting(size, product as u32);
        *request = Request {
            settings: request.settings.clone(),
            ..fitting
        };
    }
}

/// A size of which a side is 0, or that is too large, made of a small one.
pub fn bad_size(rng: &mut Rng, (width, height): (u32, u32)) -> (u32, u32) {
    let any = rng.bits() as u32;
    match rng.below(4) {
        0 => rng.pick(&[(0, any), (any, 0), (0, height), (width, 0)]),
        1 => just_above(rng),
        2 => (any, rng.bits() as u32),
        // Odd, so that some height gives the same product in 32 bits.
        _ => {
            let product = width.wrapping_mul(height);
            (any | 1, product.wrapping_mul(inverse(any | 1)))
        }
    }
}

/// The smallest size above the limit that has a random width or height.
fn just_above(rng: &mut Rng) -> (u32, u32) {
    let one = rng.range(1, 1_000);
    let other = MAX_PIXELS as u32 / one + 1;
    rng.pick(&[(one, other), (other, one)])
}

/// The number that gives 1 when it is multiplied by an odd one in 32 bits (Newton's method: each
/// round doubles the bits that are right, and three are right at first).
fn inverse(odd: u32) -> u32 {
    (0..4).fold(odd, |found, _| {
        found.wrapping_mul(2u32.wrapping_sub(odd.wrapping_mul(found)))
    })
}

#[cfg(test)]
mod tests {
    use super::*;

    /// The numbers with painting.
    fn numbers(requests: &[Request]) -> Vec<u32> {
        requests
            .iter()
            .map(|request| request.numbers()[1])
            .collect()
    }

    #[test]
    fn every_edge_is_refused_with_its_number() {
        let wanted = [vec![1; 13], vec![2; 6], vec![3; 13]].concat();
        assert_eq!(numbers(&edges_of_size()), wanted);
        for of_one_size in edges_of_lengths().chunks(22) {
            let wanted = [vec![4; 6], vec![5; 10], vec![6; 6]].concat();
            assert_eq!(numbers(of_one_size), wanted);
        }
        assert!(faults_at_once().iter().all(Request::is_refused));
    }

    #[test]
    fn only_check_6_tells_painting_apart() {
        for request in Requests::new(1).edges {
            match request.numbers() {
                [without, 6] => assert_eq!(without, 0),
                [without, with] => assert_eq!(without, with),
            }
        }
    }

    #[test]
    fn random_requests_meet_every_check() {
        let requests: Vec<Request> = (0..1_000)
            .map(|index| random(&mut Rng::for_case(1, index)))
            .collect();
        let mut met = [0; 7];
        for number in numbers(&requests) {
            met[number as usize] += 1;
        }
        assert_eq!(met[0], 0);
        assert!(met[1..].iter().all(|&times| times > 25), "{met:?}");
    }

    #[test]
    fn inverses_give_1() {
        for odd in [1, 3, 641, 6_700_417, 0x8000_0001, u32::MAX] {
            assert_eq!(odd.wrapping_mul(inverse(odd)), 1);
        }
    }
}
