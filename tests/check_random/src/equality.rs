// Whether two answers are the same.

use bm_base::{Answer, Commands, NodeCommands};

pub fn are_alike(one: &Answer, other: &Answer) -> bool {
    are_lists_alike(one, other) || are_values_alike(one, other)
}

/// Whether both are the same list.
fn are_lists_alike(one: &Answer, other: &Answer) -> bool {
    match one {
        Answer::Replicas(one) => {
            matches!(other, Answer::Replicas(other) if one.as_slice() == other.as_slice())
        }
        Answer::ReplicaIds(one) => {
            matches!(other, Answer::ReplicaIds(other) if one.as_slice() == other.as_slice())
        }
        Answer::Blocks(one) => {
            matches!(other, Answer::Blocks(other) if one.as_slice() == other.as_slice())
        }
        Answer::Storages(one) => {
            matches!(other, Answer::Storages(other) if one.as_slice() == other.as_slice())
        }
        _ => false,
    }
}

/// Whether both are the same answer that is no list.
fn are_values_alike(one: &Answer, other: &Answer) -> bool {
    match one {
        Answer::Done(one) => matches!(other, Answer::Done(other) if one == other),
        Answer::Commanded(one) => {
            matches!(other, Answer::Commanded(other) if are_commands_alike(one, other))
        }
        Answer::LevelIs(one) => matches!(other, Answer::LevelIs(other) if one == other),
        Answer::IsRetired(one) => matches!(other, Answer::IsRetired(other) if one == other),
        Answer::Number(one) => matches!(other, Answer::Number(other) if one == other),
        Answer::Refused(one) => matches!(other, Answer::Refused(other) if one == other),
        _ => false,
    }
}

fn are_commands_alike(one: &Commands, other: &Commands) -> bool {
    let nodes = one.nodes.as_slice();
    let others = other.nodes.as_slice();
    one.round == other.round
        && nodes.len() == others.len()
        && nodes
            .iter()
            .zip(others.iter())
            .all(|(node, other)| are_nodes_alike(node, other))
}

fn are_nodes_alike(one: &NodeCommands, other: &NodeCommands) -> bool {
    one.node == other.node
        && one.transfers.as_slice() == other.transfers.as_slice()
        && one.deletes.as_slice() == other.deletes.as_slice()
}
