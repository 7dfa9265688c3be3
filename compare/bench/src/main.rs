//! Times the crate and the port on chains of the same bytes, in one run: CPU time, the least of several. `bench FOLDER`, which compare/million filled.

mod clock;
mod read;
mod table;
mod tasks;

#[path = "../../driver/src/answers.rs"]
#[allow(dead_code)]
mod answers;
#[path = "../../driver/src/plant.rs"]
#[allow(dead_code)]
mod plant;
#[path = "../../driver/src/port.rs"]
#[allow(dead_code)]
mod port;
#[path = "../../driver/src/shapes.rs"]
#[allow(dead_code)]
mod shapes;

use read::Chain;
use table::Table;

fn main() {
    let folder = std::env::args().nth(1).expect("the folder that compare/million filled");
    let mut table = Table::new();
    for (name, files) in [("one file", "one"), ("50 files", "fifty")] {
        let chain = Chain::read(&format!("{folder}/{files}"));
        table.head(name, chain.bytes.len(), chain.commits);
        tasks::opening(&mut table, &chain);
        tasks::verification(&mut table, &chain);
        if chain.files.len() == 1 {
            tasks::digest(&mut table, &chain);
            tasks::traversal(&mut table, &chain);
        }
        tasks::lookups(&mut table, &chain);
        tasks::commits(&mut table, &chain);
    }
    table.print();
}
