//! How sure a commit is: what the operator asked for with `--saved` must be what the database is set to.

use super::wire::Wire;
use crate::journal::Saved;

const SETTINGS: &str = "
SELECT current_setting('fsync'), current_setting('synchronous_standby_names'),
    (SELECT count(*) FROM pg_stat_replication WHERE state = 'streaming' AND sync_state IN ('sync', 'quorum')),
    pg_has_role('pg_monitor', 'USAGE') OR current_setting('is_superuser') = 'on'";

/// Sets the session to what was asked for; or why that cannot be had.
pub fn set(wire: &mut Wire, saved: Saved) -> Result<(), String> {
    let set = match saved {
        Saved::Normal => "SET synchronous_commit = off",
        Saved::Full | Saved::Replicated => "SET synchronous_commit = on",
    };
    wire.batch(set).map_err(|why| why.text())
}

/// Looks at what the database is set to, once at a start.
pub fn checked(wire: &mut Wire, saved: Saved) -> Result<(), String> {
    let row = wire.row(SETTINGS, &[]).map_err(|why| why.text())?;
    let Some(row) = row else {
        return Err("its settings cannot be read".to_string());
    };
    let (fsync, names): (String, String) = (row.get(0), row.get(1));
    let (standbys, sees): (i64, bool) = (row.get(2), row.get(3));
    if saved != Saved::Normal && fsync != "on" {
        return Err(
            "--saved full: the database is set to fsync = off, so that a failure of power loses what was answered".to_string(),
        );
    }
    if saved != Saved::Replicated {
        return Ok(());
    }
    if names.trim().is_empty() {
        return Err(
            "--saved replicated: the database waits for no standby: set synchronous_standby_names"
                .to_string(),
        );
    }
    if standbys == 0 && !sees {
        return Err("--saved replicated: whether a standby is there cannot be seen: GRANT pg_monitor to the server's role".to_string());
    }
    if standbys == 0 {
        return Err(format!(
            "--saved replicated: no synchronous standby is there (synchronous_standby_names = {names:?}): start one, or nothing is answered"
        ));
    }
    Ok(())
}
