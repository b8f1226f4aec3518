// Worked examples of the functions of `bm_base`.
use bm_base::{BlockId, Level, Refusal, level_of, shard_of};
use std::alloc::AllocError;

#[test]
fn blocks_are_cut_by_their_numbers(rt: HostRuntime) {
    assert!(rt; shard_of(BlockId(7), 3) == 1);
    assert!(rt; shard_of(BlockId(18_446_744_073_709_551_615), 64) == 63);
}

/// The numbers of live, of drained and of requested replicas, the number of racks of the live ones,
/// whether the cluster has several racks, and the level.
const LEVELS: [(usize, usize, u32, usize, bool, Option<Level>); 13] = [
    (0, 0, 1, 0, true, Some(Level::NoUsableReplica)),
    (1, 0, 1, 1, true, None),
    (1, 0, 2, 1, true, Some(Level::Highest)),
    (2, 0, 6, 2, true, Some(Level::UnderReplicated)),
    (2, 0, 7, 2, true, Some(Level::VeryUnderReplicated)),
    (2, 0, 2, 1, true, Some(Level::BadlyDistributed)),
    (2, 0, 2, 1, false, None),
    (3, 0, 2, 1, true, Some(Level::BadlyDistributed)),
    // Drained replicas count only if none is live.
    (0, 1, 1, 0, true, Some(Level::Highest)),
    (0, 2, 16, 0, false, Some(Level::Highest)),
    (1, 1, 2, 1, true, Some(Level::Highest)),
    (2, 3, 6, 2, true, Some(Level::UnderReplicated)),
    (1, 1, 1, 1, true, None),
];

#[test]
fn levels_by_live_replicas_replication_and_racks(rt: HostRuntime) {
    for (at, (live, drained, repl, racks, multi, want)) in LEVELS.iter().enumerate() {
        let level = level_of(*live, *drained, *repl, *racks, *multi);
        assert!(rt; level == *want, "case {at}");
    }
}

const REFUSALS: [(Refusal, u32, &str); 15] = [
    (Refusal::UnknownNode, 1, "the node is not alive"),
    (Refusal::NodeKnown, 2, "the node is alive already"),
    (Refusal::UnknownStorage, 3, "the storage is not known"),
    (
        Refusal::StorageKnown,
        4,
        "a storage is known already, or named twice",
    ),
    (Refusal::UnknownBlock, 5, "the block is not known"),
    (Refusal::BlockKnown, 6, "the block is known already"),
    (
        Refusal::StillStored,
        7,
        "a stray replica of the block's number is still stored",
    ),
    (
        Refusal::BadReplication,
        8,
        "the replication is not between 1 and 16",
    ),
    (
        Refusal::OldGeneration,
        9,
        "the generation is not greater than the block's",
    ),
    (
        Refusal::TooMany,
        10,
        "a limit on nodes, storages or a report would be passed",
    ),
    (
        Refusal::NotItsStorage,
        11,
        "a storage stands on another node",
    ),
    (
        Refusal::RoundsSpent,
        12,
        "the round number is at its last value",
    ),
    (
        Refusal::CallsSpent,
        13,
        "the number of accepted calls is at its last value",
    ),
    (Refusal::Memory, 14, "memory was refused"),
    (
        Refusal::BadConfig,
        15,
        "the configuration is outside its ranges",
    ),
];

#[test]
fn refusals_say_why(rt: HostRuntime) -> Result<(), AllocError> {
    let mut text = String::new(rt.alloc());
    for (refusal, number, want) in REFUSALS.as_slice() {
        rewrite(&mut text, *refusal)?;
        assert!(rt;
            refusal.number() == *number && text.as_str() == *want,
            "{number}"
        );
    }
    Ok(())
}

/// Replaces the text by that of the refusal.
fn rewrite(text: &mut String, refusal: Refusal) -> Result<(), AllocError> {
    text.clear();
    write!(text, "{refusal}")
}
