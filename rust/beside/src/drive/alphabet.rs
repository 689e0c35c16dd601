//! The alphabet of small requests that all short histories are made from. Ips tell where they came from; instances are 0 and 1.

use crate::case::Step;
use crate::plain::{HostFrame, Regs, Request};

pub fn alphabet() -> Vec<Step> {
    let asked = pushes().into_iter().chain(replaces()).chain(hosts()).chain(plain());
    let part = |(start, end, params, results)| HostFrame {
        start,
        end,
        params,
        results,
    };
    let parts = [(0, 2, 2, 1), (1, 2, 0, 1)].map(|numbers| Step::Part {
        frame: part(numbers),
        write: Some((0, 40)),
    });
    let registers = Step::Registers(Regs {
        ireg: 1,
        freg32: 0x7f80_0001,
        freg64: 1 << 63,
    });
    asked.map(Step::Ask).chain(parts).chain([registers]).collect()
}

/// A push or replace of a head, params, locals and slots.
fn call(kind: u64, (head, params, locals, slots): (u16, u16, u16, u16)) -> Request {
    Request {
        kind,
        head,
        params,
        locals,
        slots,
        callee: 10 + kind,
        ..Request::default()
    }
}

fn pushes() -> Vec<Request> {
    let counts = [
        (0, 0, 0, 0),
        (0, 0, 1, 2),
        (1, 0, 1, 1),
        (1, 1, 2, 3),
        (2, 0, 0, 1),
        (1, 0, 0, 0),
        (0, 1, 0, 1),
    ];
    let given = [(None, None), (None, Some(1)), (Some(21), Some(0)), (Some(21), None)];
    let with = |push: Request| given.map(|(caller, instance)| Request { caller, instance, ..push });
    counts.into_iter().flat_map(|counts| with(call(1, counts))).collect()
}

fn replaces() -> Vec<Request> {
    let counts = [(0, 0, 0, 0), (0, 0, 1, 3), (1, 1, 1, 2), (1, 2, 2, 2), (2, 2, 3, 4), (0, 1, 0, 1)];
    let with = |replace: Request| [None, Some(0), Some(1)].map(|instance| Request { instance, ..replace });
    counts.into_iter().flat_map(|counts| with(call(3, counts))).collect()
}

/// Host with and without an ip, and return-host.
fn hosts() -> Vec<Request> {
    let counts = [(0, 0, 0), (1, 1, 0), (1, 1, 2), (0, 2, 1), (3, 0, 0), (2, 0, 1)];
    let base = |(head, params, results)| Request {
        head,
        params,
        results,
        ..Request::default()
    };
    let kinds = [(4, None, None), (4, Some(22), None), (5, None, Some(1))];
    let with = |base: Request| {
        kinds.map(|(kind, caller, instance)| Request {
            kind,
            caller,
            instance,
            ..base
        })
    };
    counts.into_iter().flat_map(|counts| with(base(counts))).collect()
}

/// Pop, sync, restore, reset, and three sets.
fn plain() -> Vec<Request> {
    let pop = Request {
        kind: 2,
        instance: Some(0),
        ..Request::default()
    };
    let sync = Request {
        kind: 6,
        caller: Some(23),
        ..Request::default()
    };
    let [restore, reset] = [7, 8].map(|kind| Request {
        kind,
        ..Request::default()
    });
    let [first, second, fourth] = [0, 1, 3].map(|head| Request {
        kind: 9,
        head,
        callee: 30 + u64::from(head),
        ..Request::default()
    });
    vec![pop, sync, restore, reset, first, second, fourth]
}
