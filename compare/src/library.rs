//! The proved library, as one more implementation of the entries.

use crate::{Entries, Network, Planned, Told, Verdict};

/// The library behind its face for Rust.
pub struct Library;

impl Entries for Library {
    fn plan(&self, net: Network, calls: &[u8], settings: &mut [u8]) -> Planned {
        planned(bolikwaru::plan(network(net), calls, settings))
    }

    fn accept(&self, net: Network, calls: &[u8], settings: &[u8]) -> Verdict {
        verdict(bolikwaru::accept(network(net), calls, settings))
    }

    fn read(&self, file: &[u8]) -> Told {
        let told = bolikwaru::read(file);
        Told {
            number: told.number,
            row: told.row,
            n: told.n,
            m: told.m,
            r: told.r,
            w: told.w,
            kind: told.kind,
            count: told.count,
            note_at: told.note_at,
            calls_at: told.calls_at,
            settings_at: told.settings_at,
        }
    }

    fn write_calls(
        &self,
        net: Network,
        note: &[u8],
        calls: &[u8],
        settings: &[u8],
        out: &mut [u8],
    ) -> Verdict {
        verdict(bolikwaru::write_calls(
            network(net),
            note,
            calls,
            settings,
            out,
        ))
    }

    fn write_planned(
        &self,
        net: Network,
        note: &[u8],
        calls: &[u8],
        settings: &[u8],
        out: &mut [u8],
    ) -> Verdict {
        verdict(bolikwaru::write_planned(
            network(net),
            note,
            calls,
            settings,
            out,
        ))
    }

    fn write_calls_with_cycle(
        &self,
        net: Network,
        note: &[u8],
        calls: &[u8],
        settings: &[u8],
        out: &mut [u8],
    ) -> Verdict {
        verdict(bolikwaru::write_calls_with_cycle(
            network(net),
            note,
            calls,
            settings,
            out,
        ))
    }

    fn write_planned_with_cycle(
        &self,
        net: Network,
        note: &[u8],
        calls: &[u8],
        settings: &[u8],
        out: &mut [u8],
    ) -> Verdict {
        verdict(bolikwaru::write_planned_with_cycle(
            network(net),
            note,
            calls,
            settings,
            out,
        ))
    }

    fn convert_to_new(&self, file: &[u8], out: &mut [u8]) -> Verdict {
        verdict(bolikwaru::convert_to_new(file, out))
    }

    fn convert_to_old(&self, file: &[u8], out: &mut [u8]) -> Verdict {
        verdict(bolikwaru::convert_to_old(file, out))
    }

    fn add(
        &self,
        net: Network,
        calls: &[u8],
        settings: &[u8],
        call: &[u8],
        rooms: [&mut [u8]; 3],
    ) -> Planned {
        let [calls_after, settings_after, moved_rows] = rooms;
        planned(bolikwaru::add(
            network(net),
            calls,
            settings,
            call,
            calls_after,
            settings_after,
            moved_rows,
        ))
    }

    fn drop(
        &self,
        net: Network,
        calls: &[u8],
        settings: &[u8],
        row: usize,
        rooms: [&mut [u8]; 2],
    ) -> Verdict {
        let [calls_after, settings_after] = rooms;
        verdict(bolikwaru::drop(
            network(net),
            calls,
            settings,
            row,
            calls_after,
            settings_after,
        ))
    }
}

fn network(net: Network) -> bolikwaru::Network {
    bolikwaru::Network {
        n: net.n,
        m: net.m,
        r: net.r,
        w: net.w,
    }
}

fn planned(planned: bolikwaru::Planned) -> Planned {
    Planned {
        number: planned.number,
        row: planned.row,
        moved: planned.moved,
    }
}

fn verdict(verdict: bolikwaru::Verdict) -> Verdict {
    Verdict {
        number: verdict.number,
        row: verdict.row,
    }
}
