//! The light of settings, followed as document 01 says in "How light travels", with W for Λ, as
//! request 1 of document 02 asks. Nothing here asks acceptance or planner: what lawful settings are
//! is decided by the light alone. Sizes and cycle are within their limits; numbers in rows may be
//! any bytes.

use crate::{Network, CALL_BYTES, SETTING_BYTES};

/// The four kinds of link, in the order in which light passes them.
#[derive(Clone, Copy, PartialEq, Eq, Debug)]
pub enum Link {
    InputToFirstGrating,
    FirstGratingToCentral,
    CentralToSecondGrating,
    SecondGratingToOutput,
}

impl Link {
    pub const ALL: [Link; 4] = [
        Link::InputToFirstGrating,
        Link::FirstGratingToCentral,
        Link::CentralToSecondGrating,
        Link::SecondGratingToOutput,
    ];
}

/// A link of a kind, named by its port, and the wavelength that it carries.
#[derive(Clone, Copy, PartialEq, Eq, Debug)]
pub struct Place {
    pub port: usize,
    pub wavelength: usize,
}

/// The place of one row's light on each kind of link, in their order; nothing where the light was
/// lost before.
pub type Path = [Option<Place>; 4];

/// Follows the light of one row. A wavelength x that enters the first grating at α leaves it at
/// p = [x − α], and is lost there if there is no central p. Central p turns x into y, whichever
/// central the row names. From there y leaves the second grating at q = [y − p], and is lost if
/// there is no output module q. With W above m the first grating has ports without a central, and
/// with W above r the second has ports without an output module.
pub fn follow(net: Network, call: &[u8], setting: &[u8]) -> Path {
    let [input, x, y] = [call[0], setting[0], setting[2]].map(usize::from);
    let central = leaves_at(net, x, input);
    if central >= net.m {
        return [place(input, x), None, None, None];
    }
    let output = leaves_at(net, y, central);
    [
        place(input, x),
        place(central, x),
        place(central, y),
        place(output, y).filter(|_| output < net.r),
    ]
}

fn place(port: usize, wavelength: usize) -> Option<Place> {
    Some(Place { port, wavelength })
}

/// The port at which a wavelength leaves a grating that it entered at another.
fn leaves_at(net: Network, wavelength: usize, entered: usize) -> usize {
    remainder(wavelength as i64 - entered as i64, net.cycle() as i64) as usize
}

/// [t] by a cycle above 0: the number from 0 up and below the cycle that differs from t by whole
/// cycles.
fn remainder(t: i64, cycle: i64) -> i64 {
    let mut rest = t;
    while rest < 0 {
        rest += cycle;
    }
    while rest >= cycle {
        rest -= cycle;
    }
    rest
}

/// The kinds of link on which two rows collide: those where both have light, on the same link with
/// the same wavelength.
pub fn shared(one: &Path, other: &Path) -> Vec<Link> {
    Link::ALL
        .into_iter()
        .zip(one.iter().zip(other))
        .filter(|(_, (one, other))| one.is_some() && one == other)
        .map(|(link, _)| link)
        .collect()
}

/// Whether the settings are lawful for the calls: a row for each call, every row's numbers inside
/// and its light at the central and the output module that it names, and no two rows with light on
/// the same link with the same wavelength.
pub fn lawful(net: Network, calls: &[u8], settings: &[u8]) -> bool {
    let count = calls.len() / CALL_BYTES;
    if calls.len() != CALL_BYTES * count || settings.len() != SETTING_BYTES * count {
        return false;
    }
    let rows = calls
        .chunks_exact(CALL_BYTES)
        .zip(settings.chunks_exact(SETTING_BYTES));
    let paths: Vec<Path> = rows
        .clone()
        .map(|(call, setting)| follow(net, call, setting))
        .collect();
    let all_arrive = rows
        .zip(&paths)
        .all(|((call, setting), path)| arrives(net, call, setting, path));
    all_arrive && none_collide(&paths)
}

/// Whether a row has x < W, y < W, γ < m, p = γ and q = β.
fn arrives(net: Network, call: &[u8], setting: &[u8], path: &Path) -> bool {
    let [x, central, y, output] = [setting[0], setting[1], setting[2], call[2]].map(usize::from);
    let is_at =
        |link: Link, port: usize| path[link as usize].map_or(false, |place| place.port == port);
    x < net.cycle()
        && y < net.cycle()
        && central < net.m
        && is_at(Link::FirstGratingToCentral, central)
        && is_at(Link::SecondGratingToOutput, output)
}

/// The same judgement in one pass over the rows, for tables of many: each row's light is marked on
/// its links, by a bit for each wavelength, and no mark may be there before.
pub fn lawful_by_marks(net: Network, calls: &[u8], settings: &[u8]) -> bool {
    let count = calls.len() / CALL_BYTES;
    if calls.len() != CALL_BYTES * count || settings.len() != SETTING_BYTES * count {
        return false;
    }
    let mut marks = [[0u64; 256]; 4];
    let mut rows = calls
        .chunks_exact(CALL_BYTES)
        .zip(settings.chunks_exact(SETTING_BYTES));
    rows.all(|(call, setting)| {
        let path = follow(net, call, setting);
        arrives(net, call, setting, &path) && mark(&mut marks, &path)
    })
}

/// Marks light that arrives, whose wavelengths are below W, and answers whether it is alone.
fn mark(marks: &mut [[u64; 256]; 4], path: &Path) -> bool {
    path.iter().flatten().zip(marks).all(|(place, marks)| {
        let wavelength = 1 << place.wavelength;
        let is_alone = marks[place.port] & wavelength == 0;
        marks[place.port] |= wavelength;
        is_alone
    })
}

fn none_collide(paths: &[Path]) -> bool {
    paths.iter().enumerate().all(|(row, path)| {
        paths[..row]
            .iter()
            .all(|earlier| shared(earlier, path).is_empty())
    })
}

#[cfg(test)]
mod tests {
    use super::*;

    #[test]
    fn remainders_of_negative_numbers() {
        let remainders: Vec<i64> = (-4..=4).map(|t| remainder(t, 3)).collect();
        assert_eq!(remainders, [2, 0, 1, 2, 0, 1, 2, 0, 1]);
    }

    #[test]
    fn light_passes_four_links() {
        let net = Network::of_sizes(2, 2, 3);
        let path = follow(net, &[1, 1, 1, 1], &[2, 1, 2]);
        assert_eq!(path, [place(1, 2), place(1, 2), place(1, 2), place(1, 2)]);
        let path = follow(net, &[2, 0, 0, 0], &[0, 1, 1]);
        assert_eq!(path, [place(2, 0), place(1, 0), place(1, 1), place(0, 1)]);
    }

    #[test]
    fn light_takes_the_remainder_by_the_cycle() {
        let net = Network::of_sizes(2, 3, 3).with_cycle(4);
        let path = follow(net, &[2, 0, 2, 0], &[0, 2, 0]);
        assert_eq!(path, [place(2, 0), place(2, 0), place(2, 0), place(2, 0)]);
    }

    #[test]
    fn light_is_lost_where_nothing_is_at_the_port() {
        let few_centrals = Network::of_sizes(2, 2, 3);
        let path = follow(few_centrals, &[0, 0, 0, 0], &[2, 0, 0]);
        assert_eq!(path, [place(0, 2), None, None, None]);
        let few_modules = Network::of_sizes(2, 3, 2);
        let path = follow(few_modules, &[0, 0, 0, 0], &[0, 0, 2]);
        assert_eq!(path, [place(0, 0), place(0, 0), place(0, 2), None]);
    }

    #[test]
    fn light_is_lost_at_spare_ports_of_both_gratings() {
        let net = Network::of_sizes(2, 2, 2).with_cycle(4);
        for spare in 2..4 {
            let path = follow(net, &[1, 0, 0, 0], &[(1 + spare) % 4, 0, 0]);
            assert_eq!(path[1..], [None; 3]);
            let path = follow(net, &[1, 0, 0, 0], &[2, 1, (1 + spare) % 4]);
            assert!(path[2].is_some() && path[3].is_none());
        }
    }

    #[test]
    fn lost_light_collides_only_where_it_was() {
        let net = Network::of_sizes(2, 2, 3);
        let lost = follow(net, &[0, 0, 0, 0], &[2, 0, 0]);
        assert_eq!(shared(&lost, &lost), [Link::InputToFirstGrating]);
        let whole = follow(net, &[0, 0, 0, 0], &[0, 0, 0]);
        assert_eq!(shared(&whole, &whole), Link::ALL);
        assert_eq!(shared(&lost, &whole), []);
    }
}
