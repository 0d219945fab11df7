//! A list of calls and a list of queries, each in one call of the library.

use mouldgrey::{Call, Condition, Error, Opening, Query, Rule, Subset, Table, ValueIndex};

fn main() -> Result<(), Error> {
    let opening = Opening {
        columns: 2,
        keys: 1,
        sort: 1,
        rule: Rule::TakeNew,
        capacity: 10,
        generation: 0,
    };
    let refresh = Call::Refresh {
        columns: &[0],
        values: &[8],
        stamp: 12,
    };
    let calls = [
        Call::Insert(&[7, 10]),
        Call::Insert(&[8, 10]),
        Call::Merge,
        refresh,
        Call::Merge,
    ];
    let table = Table::replay(&opening, 64, &mut ValueIndex::new(), &calls)?;
    println!("{} rows, {} dead", table.header().rows, table.header().dead);

    let queries = [
        Query::IntersectFast(Condition::ge(1, 10)),
        Query::RefineOne(Condition::eq(0, 8)),
    ];
    let left = table.run_queries(&table.all(), &queries);
    match left.ids {
        Subset::Range(start, end) => print!("left: range {start}..{end}"),
        Subset::List(ids) => print!("left: list {ids:?}"),
    }
    println!(", {} queries taken", left.taken);
    Ok(())
}
