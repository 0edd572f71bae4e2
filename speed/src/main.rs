//! Times the library against plain Rust that does the same work on the same slices, and the whole order against Dijkstra's
//! algorithm over a heap. Nothing is printed before all sides agree.

mod agree;
mod calls;
mod grid;
mod heap;
mod measure;
mod memory;
mod order;
mod plain;
mod reader;

use calls::{Calls, Library, Plain};
use grid::Grid;
use measure::{row, Setting, ONCE, REPEATS};
use memory::allocated;
use order::Order;
use plain::Side;

/// A row of the same work by the library and by plain Rust.
fn against(
    plain: Plain,
    what: &str,
    order: &mut Order,
    setting: Setting,
    work: &dyn Fn(&dyn Calls, &mut Order),
) {
    row(what, order, &setting, &|o| work(&Library, o), &|o| {
        work(&plain, o)
    });
}

/// The rows of calls that are made again and again on the same lent memory.
fn steady(order: &mut Order) {
    let again = |what: &str, order: &mut Order, work: &dyn Fn(&dyn Calls, &mut Order)| {
        against(
            Plain(plain::links),
            what,
            order,
            Setting { times: 20, ..ONCE },
            work,
        );
    };
    let reader = format!("reader, {} KiB", order.text.len() / 1024);
    again(&reader, order, &|calls, o| assert!(calls.read(o).is_ok()));
    Library.whole(order);
    again("turn of a half that is done", order, &|calls, o| {
        assert_eq!(calls.turn(o, Side::Forward), Ok(None))
    });
    again("area", order, &|calls, o| assert_eq!(calls.area(o), Ok(())));
    // Through the last crossing that is in the area, but not locally optimal.
    let detour = order.mask.iter().rposition(|&kind| kind == 1);
    let crossing = detour.expect("a detour in the area") as u32 + 1;
    again("route", order, &|calls, o| {
        assert!(calls.route(o, crossing).is_ok())
    });
}

/// The rows of the turns of each half alone, from the opened bench on.
fn halves(order: &mut Order) {
    let ready = |o: &mut Order| Library.open(o).expect("a good order");
    for (what, side, check) in [
        ("forward turn", Side::Forward, plain::links as plain::Check),
        ("backward turn", Side::Backward, plain::links),
        (
            "forward turn against links in order",
            Side::Forward,
            plain::links_in_order,
        ),
    ] {
        ready(order);
        let calls = Library.half(order, side);
        let setting = Setting {
            ready,
            calls,
            ..ONCE
        };
        against(Plain(check), what, order, setting, &|way, o| {
            assert_eq!(way.half(o, side), calls)
        });
    }
}

fn wholes(order: &mut Order) {
    against(
        Plain(plain::links),
        "whole order",
        order,
        ONCE,
        &|calls, o| calls.whole(o),
    );
    let heap = |o: &mut Order| assert!(o.heap_whole() > 0);
    row(
        "whole order against a heap",
        order,
        &ONCE,
        &|o| Library.whole(o),
        &heap,
    );
}

/// What a whole order takes beside the map: the bench and the mask are lent, the heap's costs are allocated.
fn memory(order: &mut Order) {
    let lent = size_of_val(&*order.bench) + order.mask.len();
    let library = lent + allocated(|| Library.whole(order));
    let heap = order.mask.len() + allocated(|| assert!(order.heap_whole() > 0));
    let ratio = library as f64 / heap as f64;
    println!(
        "| {} / {} | {library} | {heap} | {ratio:.2} |",
        order.n, order.m
    );
}

fn main() {
    let mut orders =
        [(32, 1 << 16), (64, 1 << 18)].map(|(side, bytes)| Order::new(Grid::new(side, bytes)));
    for order in &mut orders {
        agree::check(order);
    }
    println!("| work | crossings / links | library, µs | against, µs | ratio, median | middle half of {REPEATS} |");
    println!("|---|---|---|---|---|---|");
    for order in &mut orders {
        for rows in [steady, halves, wholes] {
            rows(order);
        }
    }
    println!("\n| crossings / links | library, bytes | heap, bytes | ratio |");
    println!("|---|---|---|---|");
    orders.iter_mut().for_each(memory);
}
