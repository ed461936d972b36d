//! Whether the desks are well and here, and the figures.

use super::problem::Problem;
use super::route::{shown, Reply};
use super::Hall;
use crate::serve::door::Door;
use crate::serve::group::Waiting;
use serde_json::{json, Map, Value};
use std::sync::mpsc::sync_channel;
use std::time::Duration;
use tokio::task::spawn_blocking;

/// How long a desk may take to show that it is there.
const HEALTHY: Duration = Duration::from_secs(5);

/// Whether a desk's thread answers.
fn is_there(door: &Door) -> bool {
    let (to, from) = sync_channel(1);
    let asked = door.to.send(Waiting::Look(to));
    asked.is_ok() && from.recv_timeout(HEALTHY).is_ok()
}

/// The state of each desk: whether all are well, and whether all are here.
async fn states(hall: &Hall) -> (Map<String, Value>, bool, bool) {
    let (mut all, mut well, mut here) = (Map::new(), true, true);
    for (name, door) in &hall.house.desks {
        let asked = door.clone();
        let there = spawn_blocking(move || is_there(&asked)).await;
        let (there, elsewhere) = (there.unwrap_or(false), door.elsewhere());
        let state = match (there, &elsewhere, door.ended()) {
            (true, ..) => "serving",
            (false, _, Some(_)) => "ended",
            // Another server has the desk, and this one waits for it.
            (false, Some(_), None) => "standby",
            (false, None, None) => "silent",
        };
        well &= matches!(state, "serving" | "standby");
        here &= state == "serving";
        let last = *door.feed.last.borrow();
        let mut object = json!({ "state": state, "last": last });
        if let ("standby", Some(told)) = (state, elsewhere) {
            object["elsewhere"] = json!(told);
        }
        all.insert(shown(name).to_string(), object);
    }
    (all, well, here)
}

fn with_status(status: &str, desks: Map<String, Value>, is_well: bool) -> Reply {
    let mut reply = Reply::json(json!({ "status": status, "desks": desks }));
    if !is_well {
        reply.status = hyper::StatusCode::SERVICE_UNAVAILABLE;
    }
    reply
}

/// 200 while every desk answers, or is watched by a standby.
pub async fn health(hall: &Hall) -> Result<Reply, Problem> {
    let (desks, well, _) = states(hall).await;
    let status = if well { "ok" } else { "failing" };
    Ok(with_status(status, desks, well))
}

/// 200 while requests are taken here: not by a standby, and not when the server ends.
pub async fn ready(hall: &Hall) -> Result<Reply, Problem> {
    let (desks, well, here) = states(hall).await;
    let closing = *hall.closing.borrow();
    let status = match (closing, well, here) {
        (true, ..) => "ending",
        (_, true, true) => "ready",
        (_, true, false) => "standby",
        _ => "failing",
    };
    Ok(with_status(status, desks, status == "ready"))
}

pub fn metrics(hall: &Hall) -> Reply {
    let house = &hall.house;
    let text = house.meter.text(house.places.taken(), hall.places.taken());
    Reply::of("text/plain; version=0.0.4; charset=utf-8", text)
}
