// What the scripts must meet of E0, E2, E4 and E6, which are no longer commands.

use crate::met::chip_name;
use crate::ACTIVITIES;
use second::chip::Chip;

const RETIRED: [&str; 4] = ["E0", "E2", "E4", "E6"];

/// Each of them on each chip, idle and Busy, and in each activity.
pub fn wanted() -> Vec<String> {
    let mut keys = Vec::new();
    for byte in RETIRED {
        for chip in Chip::BOTH.map(chip_name) {
            let key = format!("no command {} of the {}", byte, chip);
            keys.extend([format!("{}, Busy", key), key]);
        }
        keys.extend(ACTIVITIES.map(|name| format!("no command {} in {}", byte, name)));
    }
    keys
}
