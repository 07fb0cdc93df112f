//! Rules with one mistake each, so that tests can see that it does not stay unseen.

use super::{At, Machine, Rules, SECTION};
use crate::table::Protocol;

pub const WORST_STAGE_FIRST: Rules = Rules {
    choose: worst_stage_first,
    ..Rules::PAPER
};

pub const EQUAL_CEILING_STARTS: Rules = Rules {
    choose: equal_ceiling_starts,
    ..Rules::PAPER
};

pub const PREEMPTED_UNDER_NPP: Rules = Rules {
    choose: preempted_under_npp,
    ..Rules::PAPER
};

pub const RELEASED_EARLY: Rules = Rules {
    end: released_early,
    ..Rules::PAPER
};

/// An application processor runs the worst-ranked released, unfinished stage.
fn worst_stage_first(machine: &Machine, processor: usize) -> Option<At> {
    let places = &machine.plan.places;
    let here = |row: usize, stage| stage != SECTION && places[row - 1].processor == processor;
    let stages = machine.open(here);
    let worst = stages.into_iter().max_by_key(|at| machine.rank(*at));
    worst.or_else(|| machine.choose(processor))
}

/// Under PCP a section starts if its rank is at least as good as the ceilings held.
fn equal_ceiling_starts(machine: &Machine, processor: usize) -> Option<At> {
    let (begun, waiting) = machine.open_sections(processor);
    let first = machine.best_ranked(waiting).filter(|first| {
        let rank = machine.rank(*first);
        begun.iter().all(|held| rank <= machine.ceiling(*held))
    });
    match machine.table.protocol {
        Protocol::Pcp if first.is_some() => first,
        _ => machine.choose(processor),
    }
}

/// Under NPP the best-ranked released section runs, begun or not.
fn preempted_under_npp(machine: &Machine, processor: usize) -> Option<At> {
    let (begun, waiting) = machine.open_sections(processor);
    let best = machine.best_ranked([begun, waiting].concat());
    match machine.table.protocol {
        Protocol::Npp if best.is_some() => best,
        _ => machine.choose(processor),
    }
}

/// A stage is released when the one ahead of it has ended, and not at its fixed tick.
fn released_early(machine: &mut Machine, at: At, end: u64) {
    machine.end(at, end);
    let behind = machine.jobs[at.job].stages.get_mut(at.stage + 1);
    if let Some(stage) = behind {
        stage.release = end;
    }
}
