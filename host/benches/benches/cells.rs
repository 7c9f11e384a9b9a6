//! Stores of every size, in turns: both scans, and two calls on full and on empty stores.

use benches::library::Node;
use benches::scan::{self, all_zero, joined_zero};
use benches::scene;
use benches::turns;
use socketlemon::Store;

const CELLS: [usize; 4] = [1, 5, 15, Store::MOST_CELLS];

/// The calls that show the cost of the number of cells, and what they are called on full and on empty stores.
const BY_CELLS: [(&str, [&str; 2]); 2] =
    [("read-unknown", ["full-read", "empty-read"]), ("chunk-held", ["full-chunk", "empty-chunk"])];

fn main() {
    for cells in CELLS {
        let scenes = [scene::full(cells), scene::empty()];
        let mut routines =
            vec![scan::routine("joined", joined_zero, cells), scan::routine("all", all_zero, cells)];
        for (call, names) in BY_CELLS {
            for (name, scenes) in names.into_iter().zip(&scenes) {
                let scene = scenes.iter().find(|scene| scene.name == call).expect("a scene of this call");
                routines.push(Node::routine(name, scene, cells));
            }
        }
        turns::measure("cells", cells, routines);
    }
}
