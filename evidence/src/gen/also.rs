//! Directed texts with also lines (No. 2).

use super::texts::{splice, BYTES, TOKENS};
use crate::{MAX_JUNCTIONS, MAX_PAIRS};

/// As many also lines as there may be, each as long as one that is read can be: v from 100 on, g from 100 to 254.
pub fn widest() -> String {
    let all = (100..MAX_JUNCTIONS).flat_map(|v| (100..=254).map(move |g| format!("also={v},{g}\n")));
    all.take(MAX_PAIRS).collect()
}

/// Three junctions in two lists, with two tracks: `alsos` stands between the node lines and the link lines.
fn of_three(alsos: &str) -> String {
    format!("nodes=3\nlinks=2\nnode=1\nnode=0\nnode=2\n{alsos}link=0,1,3\nlink=1,2,4\n")
}

/// Lists that overlap, each with the plan's survey before and behind the also lines.
const SOUND: [&str; 14] = [
    // Two lists that share a member, by a pair of either or by two pairs.
    "nodes=3\nlinks=2\nnode=1\nnode=1\nnode=2\nalso=1,2\nlink=0,1,3\nlink=1,2,4\n",
    "nodes=3\nlinks=2\nnode=1\nnode=0\nnode=2\nalso=1,1\nalso=1,2\nlink=0,1,3\nlink=1,2,4\n",
    "nodes=3\nlinks=2\nnode=0\nnode=0\nnode=0\nalso=0,1\nalso=1,1\nalso=1,2\nalso=2,2\nlink=0,1,3\nlink=1,2,4\n",
    // Chains of three lists, by rising and by falling numbers.
    "nodes=4\nlinks=3\nnode=1\nnode=1\nnode=2\nnode=3\nalso=1,2\nalso=2,3\nlink=0,1,2\nlink=1,2,2\nlink=2,3,2\n",
    "nodes=4\nlinks=3\nnode=3\nnode=3\nnode=9\nnode=1\nalso=1,9\nalso=2,1\nlink=0,1,2\nlink=1,2,2\nlink=2,3,2\n",
    // Two lists with the same members.
    "nodes=2\nlinks=1\nnode=1\nnode=1\nalso=0,7\nalso=1,7\nlink=0,1,5\n",
    // Lone members; one that is in another list by its pair; one in two lists alone.
    "nodes=2\nlinks=1\nnode=1\nnode=0\nalso=1,2\nlink=0,1,4\n",
    "nodes=2\nlinks=1\nnode=1\nnode=2\nalso=0,2\nlink=0,1,4\n",
    "nodes=2\nlinks=1\nnode=1\nnode=0\nalso=0,2\nlink=0,1,4\n",
    // No track, nothing required.
    "nodes=1\nlinks=0\nnode=0\nalso=0,1\nalso=0,255\n",
    // A list that no track joins: the list is named, not the lowest that shares a member with it.
    "nodes=4\nlinks=1\nnode=2\nnode=2\nnode=0\nnode=5\nalso=1,5\nlink=0,1,1\n",
    "nodes=3\nlinks=0\nnode=9\nnode=3\nnode=0\nalso=2,3\nalso=2,9\n",
    // A junction needs its list by the pair alone.
    "nodes=4\nlinks=3\nnode=1\nnode=0\nnode=0\nnode=1\nalso=2,1\nlink=0,1,1\nlink=1,3,1\nlink=1,2,1\n",
    // 4, 5 and 6 wait for planning.
    "nodes=3\nlinks=3\nnode=1\nnode=1\nnode=2\nalso=1,2\nlink=0,1,3\nlink=999,999,999999999\nlink=1,1,1\n",
];

/// Also lines of the survey with three junctions of groups 1, 0 and 2.
const ALSOS: [&str; 34] = [
    // 17 against 18: v at n or above, g the own one, out of order.
    "also=0,256\n",
    "also=2,256\n",
    "also=3,256\n",
    "also=999,999\n",
    "also=1,1\nalso=1,256\n",
    "also=1,2\nalso=0,256\n",
    "also=1,2\nalso=1,2\nalso=1,256\n",
    "also=1,2\nalso=3,256\nalso=1,2\n",
    // 18.
    "also=3,1\n",
    "also=999,1\n",
    "also=3,0\n",
    "also=0,0\n",
    "also=0,1\n",
    "also=2,2\n",
    "also=1,1\nalso=1,1\n",
    "also=1,2\nalso=1,1\n",
    "also=1,1\nalso=0,2\n",
    "also=1,1\nalso=2,1\nalso=2,1\nalso=2,1\n",
    "also=0,2\nalso=1,1\nalso=2,1\nalso=2,2\n",
    // Sound, and the highest numbers.
    "also=0,2\nalso=0,255\nalso=1,1\nalso=2,1\nalso=2,255\n",
    "also=0,255\nalso=2,255\n",
    // Four digits, leading zeros, no number, three numbers, one.
    "also=1000,1\n",
    "also=1,1000\n",
    "also=00,2\n",
    "also=01,2\n",
    "also=0,02\n",
    "also=0,002\n",
    "also=,2\n",
    "also=0,\n",
    "also=0,2,\n",
    "also=0,2,1\n",
    "also=0\n",
    "also=0 ,2\n",
    "\n",
];

/// Rising also lines of two junctions in group 1.
fn rising(many: usize) -> String {
    let all = (0..2).flat_map(|v| (2..=255).map(move |g| format!("also={v},{g}\n")));
    all.take(many).collect()
}

pub fn directed(all: &mut Vec<Vec<u8>>) {
    let mut put = |text: String| all.push(text.into_bytes());
    for text in SOUND {
        put(text.to_string());
    }
    for alsos in ALSOS {
        put(of_three(alsos));
        put(of_three(alsos).replace("links=2", "links=0"));
    }
    for token in TOKENS {
        for alsos in [format!("also={token},2"), format!("also=0,{token}"), format!("also=0,2\nalso=1,{token}")] {
            put(of_three(&format!("{alsos}\n")));
            put(format!("nodes=2\nlinks=0\nnode=1\nnode=0\n{alsos}"));
            put(format!("nodes=2\nlinks=0\nnode=1\nnode=0\n{alsos}\n"));
        }
    }

    // Up to 256 lines, and what stands where a 257th would.
    for many in [MAX_PAIRS - 1, MAX_PAIRS] {
        for behind in ["", "a", "also=1,4\n", "also=1,255\n", "also=0,0\n", "also=9,999\n", "link=0,1,3\n", "l", "\n"] {
            for links in 0..2 {
                let alsos = rising(many);
                put(format!("nodes=2\nlinks={links}\nnode=1\nnode=1\n{alsos}{behind}"));
                put(format!("nodes=2\nlinks={links}\nnode=1\nnode=1\n{alsos}{behind}link=0,1,3\n"));
            }
        }
    }
    put(format!("nodes=2\nlinks=1\nnode=1\nnode=1\n{}link=0,1,3\n", "also=0,2\n".repeat(300)));
    put(format!("nodes=2\nlinks=1\nnode=1\nnode=1\n{}link=0,1,3\n", rising(300)));
    let out_of_order = rising(300).replace("also=1,2\n", "also=0,2\n");
    put(format!("nodes=2\nlinks=1\nnode=1\nnode=1\n{out_of_order}link=0,1,3\n"));

    // An also line where none may be.
    let text = of_three("also=1,1\n");
    let lines: Vec<&str> = text.split_inclusive('\n').collect();
    for at in 0..=lines.len() {
        for line in ["also=1,2\n", "also=2,1\n", "also=2,256\n"] {
            put([&lines[..at], &[line], &lines[at..]].concat().concat());
        }
    }

    // Each byte of the part with also lines stopped, left out, doubled and changed.
    let text = of_three("also=0,2\nalso=1,12\n").into_bytes();
    let from = text.windows(5).position(|key| key == b"also=").expect("it has also lines");
    for at in from - 2..from + 30 {
        all.push(text[..at].to_vec());
        all.push(splice(&text, at, at + 1, &[]));
        all.push(splice(&text, at, at, &[text[at]]));
        for byte in BYTES {
            all.push(splice(&text, at, at + 1, &[byte]));
        }
        all.push(splice(&text, at, at, b"0"));
        all.push(splice(&text, at, at, b"\n"));
    }
}
