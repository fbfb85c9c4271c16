//! Inputs for acceptance, chosen by what their light does. They are written out here; the tests
//! follow their light by `light.rs` and ask `plain.rs` for its verdict.

use super::builders::{accept, network};
use crate::inputs::Input;
use crate::Network;

/// Light that is lost, that arrives elsewhere, and that meets other light: on each set of kinds of
/// link that two rows of one network can share, and on `first grating to central` alone, which needs
/// a module outside. Light that meets on `second grating to output module` has met on `central to
/// second grating` before, since q and y name p, the one central with p = [y − q]. So no two rows
/// collide on the last kind of link alone.
pub fn by_light() -> Vec<Input> {
    [
        one_row(),
        two_rows(),
        vec![
            figure_three(),
            // Settings without a row for the call, and with a row too many.
            accept(network(2, 2, 2), &[0, 0, 0, 0], &[]),
            accept(network(2, 2, 2), &[0, 0, 0, 0], &[0, 0, 0, 1, 1, 1]),
        ],
    ]
    .concat()
}

/// One row whose light doesn't do what the row says.
fn one_row() -> Vec<Input> {
    let few_centrals = network(2, 2, 3);
    let few_modules = network(2, 3, 2);
    let square = network(2, 2, 2);
    vec![
        // x = W, whose light would arrive; y = W, the same; γ = m, with light that is lost there.
        accept(few_centrals, &[0, 0, 0, 0], &[3, 0, 0]),
        accept(few_centrals, &[0, 0, 0, 0], &[0, 0, 3]),
        accept(few_centrals, &[0, 0, 0, 0], &[2, 2, 2]),
        // Lost at the first grating, and at the second.
        accept(few_centrals, &[0, 0, 0, 0], &[2, 0, 0]),
        accept(few_modules, &[0, 0, 0, 0], &[0, 0, 2]),
        // Arrives at its output module, but through another central than is named.
        accept(square, &[0, 0, 1, 0], &[1, 0, 0]),
        // Arrives at another output module.
        accept(square, &[0, 0, 1, 0], &[1, 1, 1]),
    ]
}

/// Two rows that collide, or don't.
fn two_rows() -> Vec<Input> {
    let few_centrals = network(2, 2, 3);
    let few_modules = network(2, 3, 2);
    let square = network(2, 2, 2);
    vec![
        // Accepted: x is below its port α in row 0, so p is the remainder of a negative number; and
        // both rows have the same wavelengths, each on links of its own.
        accept(few_centrals, &[2, 0, 0, 0, 0, 1, 1, 0], &[0, 1, 1, 0, 0, 1]),
        // Collide on the first two kinds of link: case 10.
        accept(square, &[0, 0, 0, 0, 0, 1, 1, 0], &[0, 0, 0, 0, 0, 1]),
        // On the last two: case 11.
        accept(square, &[0, 0, 0, 0, 1, 0, 0, 1], &[0, 0, 0, 1, 0, 0]),
        // On all four.
        accept(square, &[0, 0, 1, 0, 0, 1, 1, 1], &[0, 0, 1, 0, 0, 1]),
        // On the first three: both are lost at the second grating.
        accept(few_modules, &[0, 0, 0, 0, 0, 1, 1, 0], &[0, 0, 2, 0, 0, 2]),
        // On `input module to first grating` alone: both are lost at the first grating.
        accept(few_centrals, &[0, 0, 0, 0, 0, 1, 1, 0], &[2, 0, 0, 2, 0, 0]),
        // On `first grating to central` alone: light of two input modules can meet so only where
        // they are a cycle apart, and then one of them is no module of the network.
        accept(few_centrals, &[0, 0, 0, 0, 3, 0, 1, 0], &[0, 0, 0, 0, 0, 1]),
        // On `central to second grating` alone: both are lost at the second grating.
        accept(few_modules, &[0, 0, 0, 0, 1, 0, 1, 0], &[0, 0, 2, 1, 0, 2]),
        // On the first two kinds, where row 1 names another central than its light reaches: the
        // pairs (α, γ) of the two rows differ.
        accept(square, &[0, 0, 0, 0, 0, 1, 1, 0], &[1, 1, 1, 1, 0, 0]),
    ]
}

/// Light of networks whose cycle is above r and above m, so that both gratings have ports at which
/// there is nothing: lost there, or led elsewhere than the larger of r and m for a cycle would lead
/// it.
pub fn by_light_at_spare_ports() -> Vec<Input> {
    [
        lost_at_spare_ports(),
        led_elsewhere(),
        arriving_by_the_cycle_alone(),
        two_rows_with_spare_ports(),
    ]
    .concat()
}

/// Five wavelengths for two centrals and three modules.
fn wide_cycle() -> Network {
    network(2, 2, 3).with_cycle(5)
}

/// Four wavelengths for three centrals and three modules: sums of module and central go beyond.
fn close_cycle() -> Network {
    network(2, 3, 3).with_cycle(4)
}

/// One row whose light is lost.
fn lost_at_spare_ports() -> Vec<Input> {
    let net = wide_cycle();
    vec![
        // At the first grating: p = 2, 3 and 4.
        accept(net, &[0, 0, 0, 0], &[2, 0, 0]),
        accept(net, &[0, 0, 1, 0], &[4, 0, 1]),
        accept(net, &[1, 0, 2, 0], &[4, 1, 3]),
        // The same, where by the larger of r and m, 3, the light would arrive.
        accept(net, &[0, 0, 0, 0], &[3, 0, 0]),
        accept(net, &[2, 0, 0, 0], &[0, 1, 1]),
        // The same, with the port named as the central.
        accept(net, &[0, 0, 0, 0], &[2, 2, 2]),
        // At the second grating: q = 3 and 4.
        accept(net, &[0, 0, 1, 0], &[0, 0, 3]),
        accept(net, &[0, 0, 0, 0], &[1, 1, 0]),
        // The same, where by 3 the light would arrive.
        accept(net, &[0, 0, 0, 0], &[0, 0, 3]),
        accept(net, &[0, 0, 2, 0], &[1, 1, 0]),
        // At the first and, had it not been lost, at the second.
        accept(net, &[0, 0, 0, 0], &[3, 0, 3]),
    ]
}

/// One row whose light would arrive by the larger of r and m, and reaches another module.
fn led_elsewhere() -> Vec<Input> {
    let net = close_cycle();
    vec![
        // At the first grating: central 2 in place of 1, and from there lost at the second; then with
        // y for central 2.
        accept(net, &[2, 0, 0, 0], &[0, 1, 1]),
        accept(net, &[2, 0, 0, 0], &[0, 1, 2]),
        // At the second grating: output module 2 in place of 1.
        accept(net, &[0, 0, 1, 0], &[2, 2, 0]),
        // x = W, and y = W: the light would arrive.
        accept(net, &[0, 0, 0, 0], &[4, 0, 0]),
        accept(net, &[0, 0, 0, 0], &[0, 0, 4]),
    ]
}

/// One row whose light arrives, and wouldn't by the larger of r and m.
fn arriving_by_the_cycle_alone() -> Vec<Input> {
    vec![
        // At both gratings, without a remainder, and with one.
        accept(wide_cycle(), &[2, 0, 2, 0], &[3, 1, 3]),
        accept(close_cycle(), &[2, 0, 2, 0], &[0, 2, 0]),
        // At the first grating alone, and at the second alone.
        accept(wide_cycle(), &[2, 0, 0, 0], &[3, 1, 1]),
        accept(close_cycle(), &[2, 0, 0, 0], &[0, 2, 2]),
        accept(wide_cycle(), &[0, 0, 2, 0], &[1, 1, 3]),
        accept(close_cycle(), &[0, 0, 2, 0], &[2, 2, 0]),
    ]
}

/// Two rows that collide, or don't.
fn two_rows_with_spare_ports() -> Vec<Input> {
    let wide = wide_cycle();
    let close = close_cycle();
    vec![
        // Accepted: both through central 2.
        accept(close, &[2, 0, 2, 0, 1, 0, 1, 0], &[0, 2, 0, 3, 2, 3]),
        // Row 1 is lost at the first grating, and at the second.
        accept(wide, &[0, 0, 0, 0, 1, 0, 1, 0], &[0, 0, 0, 0, 1, 2]),
        accept(wide, &[0, 0, 0, 0, 1, 0, 1, 0], &[0, 0, 0, 2, 1, 0]),
        // Collide on `input module to first grating`: both are lost there.
        accept(wide, &[0, 0, 0, 0, 0, 1, 1, 0], &[3, 0, 0, 3, 0, 1]),
        // On `central to second grating`: both are lost there.
        accept(wide, &[0, 0, 0, 0, 1, 0, 1, 0], &[0, 0, 3, 1, 0, 3]),
        // On the first two kinds of link, and on the last two.
        accept(close, &[2, 0, 0, 0, 2, 1, 1, 0], &[0, 2, 2, 0, 2, 3]),
        accept(close, &[2, 0, 1, 0, 1, 0, 1, 1], &[0, 2, 3, 3, 2, 3]),
    ]
}

/// Document 004, Figure 3, a grating with three input ports and four output ports, in the place of
/// the first grating: central 2 is reached by the wavelengths 2, 3 and 0 from the input modules 0, 1
/// and 2.
fn figure_three() -> Input {
    accept(
        network(1, 4, 3),
        &[0, 0, 1, 0, 1, 0, 2, 0, 2, 0, 0, 0],
        &[2, 2, 3, 3, 2, 0, 0, 2, 2],
    )
}

#[cfg(test)]
mod tests {
    use super::*;
    use crate::light::{follow, lawful, shared, Link, Path};
    use crate::plain::Plain;
    use crate::{Entries, CALL_BYTES, SETTING_BYTES};
    use End::{Arrives, LostAtFirst, LostAtSecond};
    use Link::{
        CentralToSecondGrating, FirstGratingToCentral, InputToFirstGrating, SecondGratingToOutput,
    };

    /// Where the light of a row ends: lost at a grating, or arrived, through a central at an output
    /// module.
    #[derive(Clone, Copy, PartialEq, Eq, Debug)]
    enum End {
        LostAtFirst,
        LostAtSecond,
        Arrives(usize, usize),
    }

    fn end_of(path: &Path) -> End {
        match (path[1], path[3]) {
            (Some(central), Some(output)) => Arrives(central.port, output.port),
            (Some(_), None) => LostAtSecond,
            (None, _) => LostAtFirst,
        }
    }

    /// What is claimed of an input: where each row's light ends, the kinds of link that the first
    /// two rows share, and acceptance's number and row.
    type Claim = (&'static [End], &'static [Link], (usize, usize));

    /// The claims of `by_light`, in the order of the inputs.
    const CLAIMS: [Claim; 19] = [
        (&[Arrives(0, 0)], &[], (9, 0)),
        (&[Arrives(0, 0)], &[], (9, 0)),
        (&[LostAtFirst], &[], (9, 0)),
        (&[LostAtFirst], &[], (10, 0)),
        (&[LostAtSecond], &[], (11, 0)),
        (&[Arrives(1, 1)], &[], (10, 0)),
        (&[Arrives(1, 0)], &[], (11, 0)),
        (&[Arrives(1, 0), Arrives(0, 1)], &[], (0, 2)),
        (
            &[Arrives(0, 0), Arrives(0, 1)],
            &[InputToFirstGrating, FirstGratingToCentral],
            (12, 1),
        ),
        (
            &[Arrives(0, 0), Arrives(0, 0)],
            &[CentralToSecondGrating, SecondGratingToOutput],
            (13, 1),
        ),
        (&[Arrives(0, 1), Arrives(0, 1)], &Link::ALL, (12, 1)),
        (
            &[LostAtSecond, LostAtSecond],
            &[
                InputToFirstGrating,
                FirstGratingToCentral,
                CentralToSecondGrating,
            ],
            (11, 0),
        ),
        (&[LostAtFirst, LostAtFirst], &[InputToFirstGrating], (10, 0)),
        (
            &[Arrives(0, 0), Arrives(0, 1)],
            &[FirstGratingToCentral],
            (5, 1),
        ),
        (
            &[LostAtSecond, LostAtSecond],
            &[CentralToSecondGrating],
            (11, 0),
        ),
        (
            &[Arrives(1, 0), Arrives(1, 1)],
            &[InputToFirstGrating, FirstGratingToCentral],
            (10, 1),
        ),
        (&[Arrives(2, 1), Arrives(2, 2), Arrives(2, 0)], &[], (0, 3)),
        (&[], &[], (2, 0)),
        (&[Arrives(0, 0)], &[], (2, 0)),
    ];

    /// The claims of `by_light_at_spare_ports`, in the order of the inputs.
    const CLAIMS_AT_SPARE_PORTS: [Claim; 29] = [
        (&[LostAtFirst], &[], (10, 0)),
        (&[LostAtFirst], &[], (10, 0)),
        (&[LostAtFirst], &[], (10, 0)),
        (&[LostAtFirst], &[], (10, 0)),
        (&[LostAtFirst], &[], (10, 0)),
        (&[LostAtFirst], &[], (9, 0)),
        (&[LostAtSecond], &[], (11, 0)),
        (&[LostAtSecond], &[], (11, 0)),
        (&[LostAtSecond], &[], (11, 0)),
        (&[LostAtSecond], &[], (11, 0)),
        (&[LostAtFirst], &[], (10, 0)),
        (&[LostAtSecond], &[], (10, 0)),
        (&[Arrives(2, 0)], &[], (10, 0)),
        (&[Arrives(2, 2)], &[], (11, 0)),
        (&[Arrives(0, 0)], &[], (9, 0)),
        (&[Arrives(0, 0)], &[], (9, 0)),
        (&[Arrives(1, 2)], &[], (0, 1)),
        (&[Arrives(2, 2)], &[], (0, 1)),
        (&[Arrives(1, 0)], &[], (0, 1)),
        (&[Arrives(2, 0)], &[], (0, 1)),
        (&[Arrives(1, 2)], &[], (0, 1)),
        (&[Arrives(2, 2)], &[], (0, 1)),
        (&[Arrives(2, 2), Arrives(2, 1)], &[], (0, 2)),
        (&[Arrives(0, 0), LostAtFirst], &[], (10, 1)),
        (&[Arrives(0, 0), LostAtSecond], &[], (11, 1)),
        (&[LostAtFirst, LostAtFirst], &[InputToFirstGrating], (10, 0)),
        (
            &[LostAtSecond, LostAtSecond],
            &[CentralToSecondGrating],
            (11, 0),
        ),
        (
            &[Arrives(2, 0), Arrives(2, 1)],
            &[InputToFirstGrating, FirstGratingToCentral],
            (12, 1),
        ),
        (
            &[Arrives(2, 1), Arrives(2, 1)],
            &[CentralToSecondGrating, SecondGratingToOutput],
            (13, 1),
        ),
    ];

    /// The light of the rows that have both a call and settings.
    fn paths_of(input: &Input) -> Vec<Path> {
        match input {
            Input::Accept {
                net,
                calls,
                settings,
            } => calls
                .chunks_exact(CALL_BYTES)
                .zip(settings.chunks_exact(SETTING_BYTES))
                .map(|(call, setting)| follow(*net, call, setting))
                .collect(),
            _ => panic!("light is judged by acceptance"),
        }
    }

    fn assert_answered(input: &Input, owed: (usize, usize)) {
        if let Input::Accept {
            net,
            calls,
            settings,
        } = input
        {
            let answer = Plain.accept(*net, calls, settings);
            assert_eq!((answer.number, answer.row), owed, "{:?}", input);
            assert_eq!(lawful(*net, calls, settings), owed.0 == 0);
        }
    }

    fn assert_claimed(inputs: &[Input], claims: &[Claim]) {
        assert_eq!(inputs.len(), claims.len());
        for (input, &(ends, links, answer)) in inputs.iter().zip(claims) {
            let paths = paths_of(input);
            let ended: Vec<End> = paths.iter().map(end_of).collect();
            assert_eq!(ended, ends, "{:?}", input);
            if let [one, other, ..] = &paths[..] {
                assert_eq!(shared(one, other), links, "{:?}", input);
            }
            assert_answered(input, answer);
        }
    }

    #[test]
    fn light_does_what_is_claimed() {
        assert_claimed(&by_light(), &CLAIMS);
        assert_claimed(&by_light_at_spare_ports(), &CLAIMS_AT_SPARE_PORTS);
    }

    type CycleOf = fn(&Network) -> usize;

    /// Whether the light of one row would arrive if the first grating took its remainder by one cycle,
    /// and the second by another.
    fn would_arrive(input: &Input, first: CycleOf, second: CycleOf) -> bool {
        match input {
            Input::Accept {
                net,
                calls,
                settings,
            } => {
                let [input, output] = [calls[0], calls[2]].map(usize::from);
                let [x, central, y] = [settings[0], settings[1], settings[2]].map(usize::from);
                let is_alike =
                    |one: usize, other: usize, cycle: usize| one % cycle == other % cycle;
                is_alike(x, input + central, first(net))
                    && is_alike(y, central + output, second(net))
            }
            _ => panic!("light is judged by acceptance"),
        }
    }

    /// Three rows would arrive if the larger of r and m were the cycle of the first grating alone, and
    /// three if it were that of the second alone. And rows that arrive would not if it were that of
    /// both, or they have a wavelength that there wouldn't be.
    #[test]
    fn the_larger_size_for_a_cycle_would_mislead() {
        let (cycle, least): (CycleOf, CycleOf) = (Network::cycle, Network::least_cycle);
        let wrong = [lost_at_spare_ports(), led_elsewhere()].concat();
        for (first, second) in [(least, cycle), (cycle, least)] {
            let misled = wrong.iter().filter(|input| {
                would_arrive(input, first, second) && !would_arrive(input, cycle, cycle)
            });
            assert_eq!(misled.count(), 3);
        }
        for input in arriving_by_the_cycle_alone() {
            assert!(would_arrive(&input, cycle, cycle));
            let has_further_wavelength = paths_of(&input)[0]
                .iter()
                .flatten()
                .any(|place| place.wavelength >= 3);
            assert!(has_further_wavelength || !would_arrive(&input, least, least));
        }
    }

    /// The wavelengths on which light reaches the central of Figure 3's output port, by row.
    #[test]
    fn figure_three_is_shown() {
        let at_central: Vec<(usize, usize)> = paths_of(&figure_three())
            .iter()
            .filter_map(|path| path[1].map(|place| (place.port, place.wavelength)))
            .collect();
        assert_eq!(at_central, [(2, 2), (2, 3), (2, 0)]);
    }
}
