"""What the programs of round.py and refused.py have in common: a board that begins behind the first steps of a plan, and a flow.

USES are the lines that the functions of BOARDS need beside the program's own (PacketIn of label_flow), PROOFS the files of their proofs.
"""

CRATES = "mls_label domain_map script_lines label_commands node_tables shared_tables label_flow"

USES = """ghost use Rattle.std.specs.Prelude.{◌≡◌, ◌<◌, ◌≤◌, ◌^◌, length, true, All, IfSome};
ghost use Rattle.std.specs.Arc.{arc_value};
ghost use Rattle.label_commands.specs.flow_lines.Hop.{node_of};
ghost use Rattle.shared_tables.specs.Plan.{network_after};

use domain_map::read_name;
use label_commands::{FlowLine, Flows, NodeNames, read_flow};
use node_tables::Network;
use script_lines::{Step, command_of, read_said, words_into};
use shared_tables::{Board, Plan, Publisher, Viewer};
use std::alloc::Global;
use std::sync::{Arc, Wait};
use std::thread::Threads;
"""

BOARDS = """
/// IPv4 from 10.0.0.1 to 10.0.0.2 with a CIPSO option: DOI 16, tag 1, `s2:c1,c3`.
const PACKET: [u8; 40] = [
    0x48, 0x00, 0x00, 0x28, 0x00, 0x00, 0x00, 0x00, 0x40, 0x11, 0x8c, 0xa0, 0x0a, 0x00, 0x00, 0x01,
    0x0a, 0x00, 0x00, 0x02, 0x86, 0x0b, 0x00, 0x00, 0x00, 0x10, 0x01, 0x05, 0x00, 0x02, 0x50, 0x00,
    0x03, 0xe8, 0x00, 0x35, 0x00, 0x08, 0x00, 0x00,
];

fn flow_of(alloc: Global, line: &str) -> Option<FlowLine>
    ensures { IfSome result (λ flow. All (λ hop. node_of hop < 1) flow.hops) }
{
    let mut names = NodeNames::empty(alloc);
    let name = read_name(b"r")?;
    names.add(name).ok()?;
    if names.len() != 1 {
        return None;
    }
    let mut words = Vec::new(alloc);
    words_into(line.as_bytes(), &mut words).ok()?;
    let flows = Flows::empty(alloc);
    let Ok(flow) = read_flow("own", &names, &flows, 0, line.len(), &words) else {
        return None;
    };
    Some(flow)
}

fn step_of(alloc: Global, line: &str) -> Option<Step>
    ensures { IfSome result (λ step. step.node < 1) }
{
    let mut words = Vec::new(alloc);
    words_into(line.as_bytes(), &mut words).ok()?;
    let Ok(said) = read_said(alloc, false, &words, line.len()) else {
        return None;
    };
    let command = command_of(said.row, said.fields)?;
    Some(Step { node: 0, command })
}

fn steps_of(alloc: Global, commands: &str) -> Option<Vec<Step>>
    ensures { IfSome result (λ steps. All (λ step. step.node < 1) steps.items) }
{
    let mut steps = Vec::new(alloc);
    for line in commands.lines() {
        let step = step_of(alloc, line)?;
        steps.push(step).ok()?;
    }
    Some(steps)
}

/// The plan, and how many steps it has.
fn plan_of(alloc: Global, commands: &str) -> Option<(Arc<Plan>, u32)>
    ensures { IfSome result (λ made. ((arc_value made.0).nodes ≡ 1) × (length (arc_value made.0).steps ≡ made.1)) }
{
    let steps = steps_of(alloc, commands)?;
    let count = steps.len();
    if count >= 100_000 {
        return None;
    }
    let plan = Plan::from_steps(alloc, steps, 1).ok()?;
    Some((plan, count as u32))
}

fn fresh(alloc: Global, plan: &Arc<Plan>) -> Option<Network>
    requires { (arc_value plan.now).nodes ≡ 1 }
    ensures { IfSome result (λ network. network ≡ network_after (arc_value plan.now) 0) }
{
    match Network::fresh(alloc, 1) {
        Ok(network) => Some(network),
        Err(_) => None,
    }
}

fn begun<R: Wait>(
    rt: &R,
    alloc: Global,
    network: Network,
    plan: Arc<Plan>,
    version: u32,
    viewers: usize,
) -> Option<(Publisher, Vec<Viewer>)>
    requires viewers { (0 < viewers) × (viewers ≤ 16) }
    requires version { version ≤ length (arc_value plan).steps }
    requires network { network ≡ network_after (arc_value plan) version }
    ensures publisher { IfSome result (λ begun. (begun.0.plan ≡ arc_value plan) × (begun.0.version ≡ version)) }
    ensures viewers { IfSome result (λ begun. (length begun.1.items ≡ viewers) × All (λ viewer. viewer ≡ record { board = begun.0.board; plan = arc_value plan; seen = version }) begun.1.items) }
{
    match Board::begin(rt, alloc, network, plan, version, viewers) {
        Ok(begun) => Some(begun),
        Err(_) => None,
    }
}

/// The tables after so many steps.
fn network_at<R: Wait>(rt: &R, alloc: Global, plan: &Arc<Plan>, version: u32) -> Option<Network>
    requires plan { (arc_value plan.now).nodes ≡ 1 }
    requires version { version ≤ length (arc_value plan.now).steps }
    ensures { IfSome result (λ network. network ≡ network_after (arc_value plan.now) version) }
{
    let network = fresh(alloc, plan)?;
    let Ok(again) = Arc::try_clone(plan) else {
        return None;
    };
    let (mut publisher, _viewers) = begun(rt, alloc, network, again, 0, 1)?;
    step_to(rt, &mut publisher, version);
    let reached = publisher.version() == version;
    let network = publisher.close(rt);
    if !reached {
        return None;
    }
    Some(network)
}

/// Whether each packet is as short as a feed may lend it.
fn are_short(batch: &[PacketIn]) -> bool
    ensures { result ≡ true → All (λ packet. length packet.bytes ≤ 262144) batch.now }
{
    batch.iter().all(|packet| packet.bytes.as_slice().len() <= 262_144)
}

/// Makes steps up to a version, if memory suffices.
fn step_to<R: Wait>(rt: &R, publisher: &mut Publisher, version: u32)
    requires { version ≤ length publisher.old.plan.steps }
    ensures { publisher.new.plan ≡ publisher.old.plan }
{
    for _ in 0..version {
        if publisher.version() >= version || publisher.step(rt).is_err() {
            return;
        }
    }
}
"""

PROOFS = {
    "steps_of/Invariants.antt": """use Rattle.std.proofs.Common.{◌<◌, All}
use Rattle.script_lines.specs.declared.command.Step.{Step}
use Rattle.bench_program.proofs.steps_of.Given as goal

abbrev pub invariant-loop-line : goal.invariant-loop-line
invariant-loop-line l = record { inside : All (λ (step : Step). step.node < 1) l.steps.items; }
""",
    "fresh/Answers.antt": """use Rattle.std.proofs.Common.{rules, ap, sym, ◌∙◌}
use Rattle.std.specs.Prelude.{replicate}
use Rattle.std.specs.Arc.{arc_value}
use Rattle.node_tables.specs.Tables.{fresh}
use Rattle.node_tables.proofs.Law.{nodes_begin_fresh}
use Rattle.shared_tables.specs.Plan.{PlanState}
use Rattle.bench_program.proofs.fresh.Goals as goal

pub returns-in-Ok : goal.returns-in-Ok
returns-in-Ok c =
    let p : PlanState = arc_value c.args.plan.now in
    search (rules, ap (λ n. replicate n fresh) (sym c.requires) ∙ sym (nodes_begin_fresh p.nodes p.steps))
""",
    "flow_of/Answers.antt": """use Rattle.std.proofs.Common.{rules, ◌≡◌, length}
use Rattle.label_commands.proofs.flow_lines.Law.{hops_are_of_named_nodes}
use Rattle.bench_program.proofs.flow_of.Goals as goal

pub returns : goal.returns
returns c =
    let one : length c.add.new.self ≡ 1 = search rules in
    rw one at (hops_are_of_named_nodes _ _ _ _ _ _ _ c.in-Ok.ensures.ok)
""",
    "step_to/Invariants.antt": """use Rattle.std.proofs.Common.{◌≡◌}
use Rattle.bench_program.proofs.step_to.Given as goal

abbrev pub invariant-loop : goal.invariant-loop
invariant-loop g l = record { plan : l.publisher.plan ≡ l.fn.publisher.plan; }
""",
}
