//! Replays a list against the library, without the original.

use crate::judge::judge;
use crate::library::Node;
use crate::list::List;

/// How many calls of the list agree: all, or else what differs at which call.
pub fn replay(list: &List) -> Result<usize, String> {
    let mut node = Node::new(&list.setup).map_err(|told| format!("setup is {told}"))?;
    if node.address() != list.address {
        return Err(format!(
            "the library's address of the key is {:?}, the original's {:?}",
            node.address(),
            list.address
        ));
    }
    for (at, entry) in list.entries.iter().enumerate() {
        let got = node.call(&entry.call);
        judge(&got, &entry.said).map_err(|why| format!("call {}: {why}", at + 1))?;
    }
    Ok(list.entries.len())
}
