//! Server-sent events: whoever looks at a desk hears when something was answered, and that the connection still stands.

use super::body::Query;
use super::problem::Problem;
use super::route::{Asked, Reply};
use hyper::Body;
use std::future::{poll_fn, Future};
use std::pin::pin;
use std::task::Poll;
use std::time::Duration;
use tokio::time::{sleep, timeout};

/// Without news there is a sign of life so often, and more often where a silent connection is left sooner.
const BEAT: Duration = Duration::from_secs(15);

/// News come no more often.
const PAUSE: Duration = Duration::from_millis(200);

/// Waits for the first of two.
async fn either(one: impl Future, other: impl Future) {
    let (mut one, mut other) = (pin!(one), pin!(other));
    poll_fn(
        |cx| match one.as_mut().poll(cx).is_ready() || other.as_mut().poll(cx).is_ready() {
            true => Poll::Ready(()),
            false => Poll::Pending,
        },
    )
    .await
}

pub async fn events(call: Asked) -> Result<Reply, Problem> {
    Query::read(call.query.as_deref(), &[])?;
    let (mut to, body) = Body::channel();
    let (mut last, mut closing) = (call.door.feed.last.subscribe(), call.hall.closing.clone());
    let (beat, place) = (BEAT.min(call.hall.house.patience / 4), call.place);
    tokio::spawn(async move {
        let _place = place;
        let mut text = "retry: 1000\n\n".to_string();
        let mut told = None;
        loop {
            let now = *last.borrow_and_update();
            match told == Some(now) {
                true => text += ": here\n\n",
                false => {
                    text += &format!("event: answered\nid: {now}\ndata: {{\"last\":{now}}}\n\n")
                }
            }
            told = Some(now);
            let ends = *closing.borrow_and_update();
            if let Some(why) = call
                .door
                .ended()
                .or(ends.then(|| "the server is ending".to_string()))
            {
                let why = serde_json::json!({ "ended": why });
                text += &format!("event: ended\ndata: {why}\n\n");
                let _ = to.send_data(text.into()).await;
                return;
            }
            // A client that has gone takes nothing more.
            if to
                .send_data(std::mem::take(&mut text).into())
                .await
                .is_err()
            {
                return;
            }
            sleep(PAUSE).await;
            let _ = timeout(beat, either(last.changed(), closing.changed())).await;
        }
    });
    let mut reply = Reply::of("text/event-stream", body);
    // A proxy that keeps events until it has many would keep them for ever.
    reply.headers = vec![("x-accel-buffering", "no")];
    Ok(reply)
}
