//! One connection to a database, driven by the thread that has it: whatever is asked is waited for, but not for ever.
//!
//! A wait for a synchronous standby that somebody cancels is reported as success, with a warning alone. So warnings are kept, and whoever
//! commits looks at them before anybody is answered.

use super::place::{said, Place};
use std::collections::HashMap;
use std::future::{poll_fn, Future};
use std::pin::Pin;
use std::sync::{Arc, Mutex, PoisonError};
use std::time::Duration;
use tokio::runtime::{Builder, Runtime};
use tokio_postgres::error::{DbError, SqlState};
use tokio_postgres::tls::MakeTlsConnect;
use tokio_postgres::types::ToSql;
use tokio_postgres::{AsyncMessage, Client, Config, Error, NoTls, Row, Socket, Statement};

/// How long an answer is waited for.
const PATIENCE: Duration = Duration::from_secs(30);

/// Why something was not done, or may not have been.
#[derive(Clone, PartialEq, Eq, Debug)]
pub enum Fault {
    /// The database refused it: nothing of it was done.
    Refused(SqlState, String),
    /// The connection broke, or nothing came: it may be done or not.
    Doubt(String),
}

impl Fault {
    pub fn text(&self) -> String {
        match self {
            Fault::Refused(_, why) | Fault::Doubt(why) => why.clone(),
        }
    }
}

impl From<Error> for Fault {
    fn from(why: Error) -> Fault {
        let Some(db) = why.as_db_error() else {
            return Fault::Doubt(said(&why));
        };
        let code = db.code().code();
        // Shutdowns, broken connections, and a server that takes no writes since it is a standby now.
        let gone = code.starts_with("57P") || code.starts_with("08") || code == "25006";
        match gone || matches!(db.severity(), "FATAL" | "PANIC") {
            true => Fault::Doubt(db.message().to_string()),
            false => Fault::Refused(db.code().clone(), db.message().to_string()),
        }
    }
}

/// What the database has warned of.
type Warnings = Arc<Mutex<Vec<DbError>>>;

pub struct Wire {
    runtime: Runtime,
    client: Client,
    warnings: Warnings,
    prepared: HashMap<&'static str, Statement>,
}

/// Values of a statement.
pub type Values<'a> = &'a [&'a (dyn ToSql + Sync)];

impl Wire {
    pub fn connect(place: &Place) -> Result<Wire, Fault> {
        let failed = |why: std::io::Error| Fault::Doubt(why.to_string());
        let mut builder = Builder::new_current_thread();
        let runtime = builder.enable_io().enable_time().build().map_err(failed)?;
        let warnings = Warnings::default();
        let one = |host: &Config| match &place.tls {
            None => connected(&runtime, host, NoTls, &warnings),
            Some(tls) => connected(&runtime, host, tls.clone(), &warnings),
        };
        let client = first(&place.hosts, one)?;
        let wire = Wire {
            runtime,
            client,
            warnings,
            prepared: HashMap::new(),
        };
        wire.batch(
            "SET search_path = mishantral; SET client_min_messages = warning; SET default_transaction_isolation = 'read committed'; \
             SET statement_timeout = 0; SET lock_timeout = 0; SET idle_in_transaction_session_timeout = '60s'; SET TimeZone = 'UTC'",
        )?;
        Ok(wire)
    }

    /// Statements without values, one after the other.
    pub fn batch(&self, sql: &str) -> Result<(), Fault> {
        waited(&self.runtime, self.client.batch_execute(sql))
    }

    fn statement(&mut self, sql: &'static str) -> Result<Statement, Fault> {
        if let Some(statement) = self.prepared.get(sql) {
            return Ok(statement.clone());
        }
        let statement = waited(&self.runtime, self.client.prepare(sql))?;
        self.prepared.insert(sql, statement.clone());
        Ok(statement)
    }

    pub fn rows(&mut self, sql: &'static str, values: Values) -> Result<Vec<Row>, Fault> {
        let statement = self.statement(sql)?;
        waited(&self.runtime, self.client.query(&statement, values))
    }

    pub fn row(&mut self, sql: &'static str, values: Values) -> Result<Option<Row>, Fault> {
        Ok(self.rows(sql, values)?.into_iter().next())
    }

    pub fn execute(&mut self, sql: &'static str, values: Values) -> Result<u64, Fault> {
        let statement = self.statement(sql)?;
        waited(&self.runtime, self.client.execute(&statement, values))
    }

    /// A statement that commits by itself, and what it returns. A warning among its answers is a fault: what a cancelled wait for a standby
    /// leaves is there, and may be lost with this machine.
    pub fn committed(&mut self, sql: &'static str, values: Values) -> Result<Vec<Row>, Fault> {
        self.warned();
        let rows = self.rows(sql, values)?;
        match self.warned() {
            None => Ok(rows),
            Some(why) => Err(Fault::Doubt(why)),
        }
    }

    /// The first warning since this was last asked.
    pub fn warned(&self) -> Option<String> {
        let mut kept = self.warnings.lock().unwrap_or_else(PoisonError::into_inner);
        let mut all = kept.drain(..);
        let warning = all.find(|w| matches!(w.severity(), "WARNING" | "ERROR" | "FATAL"))?;
        Some(match warning.detail() {
            Some(detail) => format!("{}: {detail}", warning.message()),
            None => warning.message().to_string(),
        })
    }
}

/// What the first host gives that gives it; or what each of them said.
fn first<T>(hosts: &[Config], one: impl Fn(&Config) -> Result<T, Fault>) -> Result<T, Fault> {
    let mut told: Vec<String> = Vec::new();
    for host in hosts {
        match one(host) {
            Ok(given) => return Ok(given),
            Err(why) if hosts.len() == 1 => return Err(why),
            Err(why) => told.push(format!("{:?}: {}", host.get_hosts(), why.text())),
        }
    }
    Err(Fault::Doubt(told.join("; ")))
}

/// Connects to a host, and keeps the connection's warnings.
fn connected<T>(
    runtime: &Runtime,
    host: &Config,
    tls: T,
    warnings: &Warnings,
) -> Result<Client, Fault>
where
    T: MakeTlsConnect<Socket>,
    T::Stream: Send + 'static,
{
    let patience = host.get_connect_timeout().copied().unwrap_or(PATIENCE);
    let (client, mut connection) = within(runtime, patience, host.connect(tls))?;
    let kept = warnings.clone();
    runtime.spawn(async move {
        loop {
            let message = poll_fn(|context| Pin::new(&mut connection).poll_message(context));
            match message.await {
                Some(Ok(AsyncMessage::Notice(notice))) => {
                    let mut kept = kept.lock().unwrap_or_else(PoisonError::into_inner);
                    kept.push(notice);
                }
                Some(Ok(_)) => {}
                Some(Err(_)) | None => return,
            }
        }
    });
    Ok(client)
}

/// What a future comes to, if it does in time.
fn waited<T>(
    runtime: &Runtime,
    future: impl Future<Output = Result<T, Error>>,
) -> Result<T, Fault> {
    within(runtime, PATIENCE, future)
}

fn within<T>(
    runtime: &Runtime,
    patience: Duration,
    future: impl Future<Output = Result<T, Error>>,
) -> Result<T, Fault> {
    runtime.block_on(async {
        match tokio::time::timeout(patience, future).await {
            Ok(done) => done.map_err(Fault::from),
            Err(_) => Err(Fault::Doubt(format!(
                "the database has not answered for {} s",
                patience.as_secs()
            ))),
        }
    })
}
