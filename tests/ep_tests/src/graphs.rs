//! The graph of nested instances: each call once, and refused memory.

use ep_base::{DescId, EntryId, Errno};
use ep_nest::Graph;
use linked_list_allocator::LocalHeap;
use std::alloc::{AllocError, Allocator};
use std::process::Abort;
use std::test::Fail;

/// Adds a link where the graph allows it.
fn add(
    rt: &impl Abort,
    graph: &mut Graph,
    outer: usize,
    inner: usize,
    entry: usize,
) -> Result<(), Errno> {
    graph.may_add(DescId(outer), DescId(inner))?;
    assert!(rt; !graph.is_linked(EntryId(entry)));
    graph
        .link(DescId(outer), DescId(inner), EntryId(entry))
        .expect(rt, "memory for a link");
    assert!(rt; graph.is_linked(EntryId(entry)));
    Ok(())
}

/// The instance that was the first to watch one, of those that still do.
fn watcher<A: Allocator>(graph: &Graph<A>, inner: usize) -> Option<DescId> {
    Some(graph.links_to(DescId(inner))?.next()?.outer)
}

/// 3 watches 4, which watches 5: 5 may not watch 3. A link that is taken away leads to nothing any more.
#[test]
fn links_lead_to_instances(rt: HostRuntime) {
    let mut graph = Graph::new(rt.alloc());
    leads(&rt, &mut graph);
}

fn leads(rt: &impl Abort, graph: &mut Graph) {
    assert!(rt; add(rt, graph, 3, 4, 1) == Ok(()) && add(rt, graph, 4, 5, 2) == Ok(()));
    assert!(rt; graph.may_add(DescId(5), DescId(3)) == Err(Errno::Eloop));
    assert!(rt; watcher(graph, 5) == Some(DescId(4)) && watcher(graph, 4) == Some(DescId(3)));
    assert!(rt; watcher(graph, 3).is_none());
    graph.unlink(EntryId(1));
    assert!(rt; watcher(graph, 4).is_none());
    assert!(rt; graph.links().next().is_some());
    graph.purge(DescId(5));
    assert!(rt; graph.links().next().is_none());
}

/// Whether a link is refused over a heap of so many bytes. A refused link leaves the graph as it was.
fn is_refused(rt: &(impl Abort + AllocGlobal), bytes: usize) -> Result<bool, AllocError> {
    let heap = LocalHeap::new(rt.alloc(), bytes)?;
    let mut graph = Graph::new(&heap);
    let is_refused = graph.link(DescId(1), DescId(2), EntryId(3)).is_err();
    assert!(rt; graph.is_linked(EntryId(3)) != is_refused);
    assert!(rt; watcher(&graph, 2).is_none() == is_refused);
    Ok(is_refused)
}

/// Over heaps of rising size each request for memory is refused in turn, and none where there is enough.
#[test]
fn keeps_the_graph_where_memory_is_refused(rt: HostRuntime) -> Result<(), Fail> {
    for units in 2..128 {
        is_refused(&rt, 32 * units)?;
    }
    assert!(rt; is_refused(&rt, 16)?);
    assert!(rt; !is_refused(&rt, 4_096)?);
    Ok(())
}
