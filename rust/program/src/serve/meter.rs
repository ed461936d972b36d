//! What Prometheus reads: counters and histograms of every desk and of HTTP. The names are listed in docs/HTTP.md.

use prometheus::{
    exponential_buckets, Encoder, HistogramOpts, HistogramVec, IntCounter, IntCounterVec, IntGauge,
    IntGaugeVec, Opts, Registry, TextEncoder,
};
use records::forms::{parts, Part, FORMS};
use records::Reply;
use std::collections::HashMap;
use std::time::{SystemTime, UNIX_EPOCH};

/// Every figure of one server.
pub struct Meter {
    registry: Registry,
    requests: IntCounterVec,
    barred: IntCounterVec,
    not_done: IntCounterVec,
    group: HistogramVec,
    write: HistogramVec,
    last: IntGaugeVec,
    clients: IntGaugeVec,
    http: IntCounterVec,
    http_time: HistogramVec,
}

/// The figures of one desk.
pub struct OfDesk {
    desk: String,
    requests: IntCounterVec,
    by_kind: HashMap<(u8, u8), IntCounter>,
    pub barred: IntCounter,
    pub not_done: IntCounter,
    pub group: prometheus::Histogram,
    pub write: prometheus::Histogram,
    pub last: IntGauge,
}

/// The words that a kind's line begins with, as `open_order`; with the kind's number where several kinds begin so.
fn kind_label(kind: u8) -> String {
    let of = |pattern: &'static str| {
        let words = parts(pattern).map_while(|part| match part {
            Part::Word(word) => Some(word),
            _ => None,
        });
        words.collect::<Vec<&str>>().join("_")
    };
    let requests = || FORMS.into_iter().filter(|&(of, _)| of >= 32);
    let Some((_, pattern)) = requests().find(|&(of, _)| of == kind) else {
        return "none".to_string();
    };
    let label = of(pattern);
    match requests().any(|(other, pattern)| other != kind && of(pattern) == label) {
        true => format!("{label}_{kind}"),
        false => label,
    }
}

impl OfDesk {
    /// Counts a request with its reply.
    pub fn count(&mut self, kind: u8, reply: u8) {
        // What is no kind counts together, so that nobody makes figures without end.
        let kind = if kind_is_request(kind) { kind } else { 0 };
        let (requests, desk) = (&self.requests, &self.desk);
        let counter = self.by_kind.entry((kind, reply)).or_insert_with(|| {
            let reply = Reply::from_number(reply.into()).map_or("", |reply| reply.name());
            requests.with_label_values(&[desk, &kind_label(kind), reply])
        });
        counter.inc();
    }
}

fn kind_is_request(kind: u8) -> bool {
    (32..=63).contains(&kind)
}

impl Meter {
    pub fn new() -> Result<Meter, prometheus::Error> {
        let registry = Registry::new();
        let counter = |name: &str, help: &str, labels: &[&str]| {
            let made = IntCounterVec::new(Opts::new(name, help), labels)?;
            registry.register(Box::new(made.clone())).map(|()| made)
        };
        let gauge = |name: &str, help: &str, labels: &[&str]| {
            let made = IntGaugeVec::new(Opts::new(name, help), labels)?;
            registry.register(Box::new(made.clone())).map(|()| made)
        };
        let histogram = |name: &str, help: &str, labels: &[&str], buckets: Vec<f64>| {
            let made = HistogramVec::new(HistogramOpts::new(name, help).buckets(buckets), labels)?;
            registry.register(Box::new(made.clone())).map(|()| made)
        };
        let times = || exponential_buckets(0.0001, 2.5, 14);
        let meter = Meter {
            requests: counter(
                "mishantral_requests_total",
                "Requests that were put to the engine, by kind and reply",
                &["desk", "kind", "reply"],
            )?,
            barred: counter(
                "mishantral_barred_total",
                "Requests and questions that an account may not ask",
                &["desk"],
            )?,
            not_done: counter(
                "mishantral_not_done_total",
                "Requests that were not done because the journal could not be written",
                &["desk"],
            )?,
            group: histogram(
                "mishantral_group_requests",
                "Requests in one transaction of the journal",
                &["desk"],
                exponential_buckets(1.0, 4.0, 7)?,
            )?,
            write: histogram(
                "mishantral_journal_write_seconds",
                "How long the journal took to write a group of requests",
                &["desk"],
                times()?,
            )?,
            last: gauge(
                "mishantral_last_request",
                "The number of the last request that was answered",
                &["desk"],
            )?,
            clients: gauge(
                "mishantral_clients",
                "Connections now, by listener",
                &["listener"],
            )?,
            http: counter(
                "mishantral_http_responses_total",
                "HTTP responses, by route, method and status",
                &["route", "method", "status"],
            )?,
            http_time: histogram(
                "mishantral_http_response_seconds",
                "How long HTTP responses took, up to their first byte",
                &["route"],
                times()?,
            )?,
            registry: registry.clone(),
        };
        let built = gauge(
            "mishantral_build_info",
            "The program's version",
            &["version"],
        )?;
        built.with_label_values(&[env!("CARGO_PKG_VERSION")]).set(1);
        let started = gauge(
            "mishantral_start_time_seconds",
            "When the server started, in seconds since 1970",
            &[],
        )?;
        let since = SystemTime::now().duration_since(UNIX_EPOCH);
        let since = since.map_or(0, |since| since.as_secs() as i64);
        started.with_label_values(&[]).set(since);
        Ok(meter)
    }

    pub fn of_desk(&self, name: &str) -> OfDesk {
        let desk = [name];
        OfDesk {
            desk: name.to_string(),
            requests: self.requests.clone(),
            by_kind: HashMap::new(),
            barred: self.barred.with_label_values(&desk),
            not_done: self.not_done.with_label_values(&desk),
            group: self.group.with_label_values(&desk),
            write: self.write.with_label_values(&desk),
            last: self.last.with_label_values(&desk),
        }
    }

    pub fn responded(&self, route: &str, method: &str, status: u16, seconds: f64) {
        let status = status.to_string();
        let labels = [route, method, status.as_str()];
        self.http.with_label_values(&labels).inc();
        self.http_time.with_label_values(&[route]).observe(seconds);
    }

    /// All figures in the text form, with how many clients there are now.
    pub fn text(&self, sockets: usize, http: usize) -> Vec<u8> {
        let clients = |listener: &str| self.clients.with_label_values(&[listener]);
        clients("socket").set(sockets as i64);
        clients("http").set(http as i64);
        let mut text = Vec::new();
        // Writing into memory fails for nothing but a figure without a name.
        let _ = TextEncoder::new().encode(&self.registry.gather(), &mut text);
        text
    }
}

#[cfg(test)]
mod tests {
    use super::*;

    #[test]
    fn kinds_have_words_of_their_own() {
        let kinds = FORMS.iter().map(|&(kind, _)| kind).filter(|&k| k >= 32);
        let kinds: std::collections::BTreeSet<u8> = kinds.collect();
        let labels: std::collections::BTreeSet<String> =
            kinds.iter().map(|&kind| kind_label(kind)).collect();
        assert_eq!(labels.len(), kinds.len(), "{labels:?}");
        assert_eq!(
            (kind_label(50), kind_label(7)),
            ("claim".into(), "none".into())
        );
    }

    #[test]
    fn what_is_counted_is_told() {
        let meter = Meter::new().unwrap();
        let mut desk = meter.of_desk("mill");
        desk.count(50, 15);
        desk.count(50, 15);
        desk.count(7, 2);
        desk.write.observe(0.001);
        let text = String::from_utf8(meter.text(3, 1)).unwrap();
        for line in [
            "mishantral_requests_total{desk=\"mill\",kind=\"claim\",reply=\"SEPARATION\"} 2",
            "mishantral_requests_total{desk=\"mill\",kind=\"none\",reply=\"SHAPE\"} 1",
            "mishantral_clients{listener=\"socket\"} 3",
            "mishantral_journal_write_seconds_count{desk=\"mill\"} 1",
            "# TYPE mishantral_journal_write_seconds histogram",
        ] {
            assert!(text.lines().any(|told| told == line), "{line}: {text}");
        }
    }
}
