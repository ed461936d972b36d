//! Where a journal in PostgreSQL is: an address as libpq has it, `postgresql://user@host/database`, and the desk's name after `#`.

use super::tls::{Tls, Trust};
use crate::serve::decoded;
use std::env;
use std::str::FromStr;
use std::time::Duration;
use tokio_postgres::config::{Host, SslMode};
use tokio_postgres::Config;

/// The longest name of a desk, in bytes.
const LONGEST: usize = 64;

/// Whether a word names a database, and no file.
pub fn is_database(word: &str) -> bool {
    word.starts_with("postgresql://") || word.starts_with("postgres://")
}

/// The address with a desk after it; a file stays as it is.
pub fn with_desk(word: &str, desk: Option<&str>) -> String {
    match desk.filter(|_| is_database(word) && !word.contains('#')) {
        Some(desk) => format!("{word}#{desk}"),
        None => word.to_string(),
    }
}

/// An address as it is shown: without its password.
pub fn shown(word: &str) -> String {
    let Some((scheme, rest)) = word.split_once("://").filter(|_| is_database(word)) else {
        return word.to_string();
    };
    let (rest, desk) = rest
        .split_once('#')
        .map_or((rest, None), |(rest, desk)| (rest, Some(desk)));
    let (rest, options) = rest
        .split_once('?')
        .map_or((rest, ""), |(rest, options)| (rest, options));
    let (whose, rest) = rest
        .rsplit_once('@')
        .map_or(("", rest), |(whose, rest)| (whose, rest));
    let user = whose.split(':').next().unwrap_or_default();
    let at = if user.is_empty() { "" } else { "@" };
    let is_shown = |option: &&str| !option.is_empty() && !option.starts_with("password=");
    let options: Vec<&str> = options.split('&').filter(is_shown).collect();
    let mark = if options.is_empty() { "" } else { "?" };
    let options = options.join("&");
    let desk = desk.map_or(String::new(), |desk| format!("#{desk}"));
    format!("{scheme}://{user}{at}{rest}{mark}{options}{desk}")
}

/// What an address says of TLS, in libpq's words, which the client that the distribution packages does not know.
#[derive(Clone, Default, PartialEq, Eq, Debug)]
pub struct Ssl {
    mode: Option<String>,
    /// The authorities that are trusted; the system's where none are named.
    pub root: Option<String>,
    /// A certificate of this program's own, and its key.
    pub own: Option<(String, String)>,
}

/// A desk's place in a database.
#[derive(Clone)]
pub struct Place {
    /// How each of its hosts is reached, in the order in which they are tried.
    pub hosts: Vec<Config>,
    /// How its connections are encrypted; none where they are not.
    pub tls: Option<Tls>,
    pub desk: String,
    /// As it is named in messages.
    pub shown: String,
}

impl Place {
    /// The place that a word names; or what is wrong with it.
    pub fn of(word: &str) -> Result<Place, String> {
        let (address, desk) = match word.split_once('#') {
            Some((address, desk)) => (address, desk),
            None => {
                return Err(
                    "a journal in a database is one of several: --desk NAME says which".to_string(),
                )
            }
        };
        let fit = !desk.is_empty()
            && desk.len() <= LONGEST
            && !desk
                .chars()
                .any(|c| c.is_control() || c.is_whitespace() || c == '#');
        if !fit {
            return Err(format!(
                "--desk {desk:?}: a name of 1 to {LONGEST} bytes without blanks is expected"
            ));
        }
        let (address, ssl) = split(address)?;
        let config = Config::from_str(&address).map_err(|why| said(&why))?;
        let mut config = completed(config)?;
        let tls = secured(&config, &ssl)?;
        config.ssl_mode(match tls {
            Some(_) => SslMode::Require,
            None => SslMode::Disable,
        });
        Ok(Place {
            hosts: apart(&config),
            tls,
            desk: desk.to_string(),
            shown: shown(word),
        })
    }
}

/// An address without its words of TLS, and these. Several hosts, as libpq takes them with commas between, stand one by one.
fn split(address: &str) -> Result<(String, Ssl), String> {
    let Some((before, options)) = address.split_once('?') else {
        return Ok((address.to_string(), Ssl::default().completed()?));
    };
    let (mut ssl, mut certificate, mut key) = (Ssl::default(), None, None);
    let mut left: Vec<String> = Vec::new();
    for option in options.split('&') {
        let (name, value) = option.split_once('=').unwrap_or((option, ""));
        let said = || decoded(value, false).ok_or(format!("{option}: it is no text"));
        match name {
            "sslmode" => ssl.mode = Some(said()?),
            "sslrootcert" => ssl.root = Some(said()?),
            "sslcert" => certificate = Some(said()?),
            "sslkey" => key = Some(said()?),
            "host" => left.extend(value.split(',').map(|host| format!("host={host}"))),
            _ => left.push(option.to_string()),
        }
    }
    ssl.own = match (certificate, key) {
        (None, None) => None,
        (Some(certificate), Some(key)) => Some((certificate, key)),
        _ => return Err("sslcert and sslkey are named together".to_string()),
    };
    Ok((format!("{before}?{}", left.join("&")), ssl.completed()?))
}

/// A variable of the system that is set.
fn set(name: &str) -> Option<String> {
    env::var(name).ok().filter(|value| !value.is_empty())
}

impl Ssl {
    /// With what libpq takes from the system where an address is silent.
    fn completed(mut self) -> Result<Ssl, String> {
        self.mode = self.mode.or(set("PGSSLMODE"));
        self.root = self.root.or(set("PGSSLROOTCERT"));
        let known = [
            "disable",
            "allow",
            "prefer",
            "require",
            "verify-ca",
            "verify-full",
        ];
        match &self.mode {
            Some(mode) if !known.contains(&mode.as_str()) => Err(format!(
                "sslmode={mode}: one of disable, require, verify-ca and verify-full is expected"
            )),
            _ => Ok(self),
        }
    }
}

/// How connections to these hosts are encrypted. A Unix socket and the loopback need none; to another machine nothing goes in the clear unless
/// `sslmode=disable` says so.
fn secured(config: &Config, ssl: &Ssl) -> Result<Option<Tls>, String> {
    let is_unix = |host: &Host| matches!(host, Host::Unix(_));
    let is_away = |host: &Host| match host {
        Host::Tcp(name) => !matches!(name.as_str(), "localhost" | "127.0.0.1" | "::1"),
        Host::Unix(_) => false,
    };
    let hosts = config.get_hosts();
    if hosts.iter().all(is_unix) {
        return Ok(None);
    }
    let away = hosts.iter().any(is_away);
    let trust = match (ssl.mode.as_deref(), away) {
        (Some("disable"), _) | (None | Some("allow" | "prefer"), false) => return Ok(None),
        (Some(mode @ ("allow" | "prefer")), true) => {
            return Err(format!(
                "sslmode={mode} goes on in the clear where a server has no TLS: say sslmode=verify-full, or sslmode=disable where the network \
                 between the two is yours alone"
            ))
        }
        // As with libpq, an authority that is named is looked at.
        (Some("require"), _) if ssl.root.is_none() => Trust::Anybody,
        (Some("require" | "verify-ca"), _) => Trust::Authority,
        (_, _) => Trust::Host,
    };
    match hosts.iter().any(is_unix) {
        true => Err("a Unix socket has no TLS: name hosts alone, or sockets alone".to_string()),
        false => Tls::of(trust, ssl).map(Some),
    }
}

/// What libpq takes from the system where an address does not say it: the user, the socket, the password.
fn completed(mut config: Config) -> Result<Config, String> {
    if config.get_user().is_none() {
        let login = nix::unistd::User::from_uid(nix::unistd::Uid::effective());
        let login = login.ok().flatten().map(|user| user.name);
        let user = set("PGUSER").or(login);
        config.user(&user.ok_or("the address names no user, and the system has no login")?);
    }
    if config.get_password().is_none() {
        set("PGPASSWORD").map(|password| config.password(password).get_ssl_mode());
    }
    if config.get_hosts().is_empty() {
        config.host(&set("PGHOST").unwrap_or("/var/run/postgresql".to_string()));
    }
    if config.get_connect_timeout().is_none() {
        config.connect_timeout(Duration::from_secs(5));
    }
    Ok(config)
}

/// One way for each host. The client would wait for one that takes connections and says nothing as long as for all of them.
fn apart(config: &Config) -> Vec<Config> {
    let (hosts, ports) = (config.get_hosts(), config.get_ports());
    let port = |at: usize| ports.get(at).or(ports.first());
    let one = |(at, host): (usize, &Host)| {
        let mut one = Config::new();
        match host {
            Host::Tcp(name) => one.host(name),
            Host::Unix(path) => one.host_path(path),
        };
        port(at).map(|&port| one.port(port).get_ssl_mode());
        let (user, name) = (config.get_user(), config.get_dbname());
        user.map(|user| one.user(user).get_ssl_mode());
        name.map(|name| one.dbname(name).get_ssl_mode());
        let (password, options) = (config.get_password(), config.get_options());
        password.map(|password| one.password(password).get_ssl_mode());
        options.map(|options| one.options(options).get_ssl_mode());
        let patience = config.get_connect_timeout();
        patience.map(|&patience| one.connect_timeout(patience).get_ssl_mode());
        one.ssl_mode(config.get_ssl_mode())
            .channel_binding(config.get_channel_binding())
            .target_session_attrs(config.get_target_session_attrs())
            .keepalives(config.get_keepalives())
            .keepalives_idle(Duration::from_secs(10))
            .application_name("mishantral");
        one
    };
    hosts.iter().enumerate().map(one).collect()
}

/// An error with what it comes from.
pub fn said(why: &tokio_postgres::Error) -> String {
    let mut text = why.to_string();
    let mut from = std::error::Error::source(why);
    while let Some(source) = from {
        let more = source.to_string();
        if !text.contains(&more) {
            text = format!("{text}: {more}");
        }
        from = source.source();
    }
    text
}

#[cfg(test)]
mod tests {
    use super::*;

    #[test]
    fn a_password_is_never_shown() {
        let word = "postgresql://anna:se:cret@host:5433/db?password=p&connect_timeout=3#mill";
        assert_eq!(
            shown(word),
            "postgresql://anna@host:5433/db?connect_timeout=3#mill"
        );
        assert_eq!(
            shown("postgresql:///db?host=/run/pg"),
            "postgresql:///db?host=/run/pg"
        );
        assert_eq!(shown("desk.db"), "desk.db");
    }

    #[test]
    fn a_desk_is_named_behind_the_address_or_by_an_option() {
        let address = "postgresql:///db?host=/run/pg";
        let word = with_desk(address, Some("mill"));
        let place = Place::of(&word).ok().unwrap();
        assert_eq!(place.desk, "mill");
        assert_eq!(with_desk("desk.db", Some("mill")), "desk.db");
        assert!(Place::of(address).err().unwrap().contains("--desk NAME"));
        assert!(Place::of(&with_desk(address, Some("a b"))).is_err());
    }

    #[test]
    fn several_hosts_are_tried_in_turn() {
        let word = "postgresql:///db?host=/run/a,/run/b&target_session_attrs=read-write#mill";
        let place = Place::of(word).ok().unwrap();
        let hosts: Vec<&[Host]> = place.hosts.iter().map(Config::get_hosts).collect();
        let unix = |path: &str| [Host::Unix(path.into())];
        assert_eq!(hosts, [&unix("/run/a"), &unix("/run/b")]);
        let word = "postgresql://u@127.0.0.1:5433,localhost:5434/db?connect_timeout=2#mill";
        let place = Place::of(word).ok().unwrap();
        let ports: Vec<&[u16]> = place.hosts.iter().map(Config::get_ports).collect();
        assert_eq!(ports, [&[5433], &[5434]]);
        assert_eq!(place.hosts[1].get_dbname(), Some("db"));
        let patience = place.hosts[1].get_connect_timeout();
        assert_eq!(patience, Some(&Duration::from_secs(2)));
    }

    #[test]
    fn nothing_goes_in_the_clear_to_another_machine_unless_that_is_said() {
        let tls = |word: &str| Place::of(&format!("{word}#mill")).map(|place| place.tls.is_some());
        assert_eq!(tls("postgresql://elsewhere/db"), Ok(true));
        for mode in ["require", "verify-ca", "verify-full"] {
            let word = format!("postgresql://elsewhere/db?sslmode={mode}&connect_timeout=3");
            assert_eq!(tls(&word), Ok(true));
        }
        assert_eq!(tls("postgresql://elsewhere/db?sslmode=disable"), Ok(false));
        assert_eq!(tls("postgresql://localhost/db"), Ok(false));
        assert_eq!(tls("postgresql://localhost/db?sslmode=require"), Ok(true));
        assert_eq!(
            tls("postgresql:///db?host=/run/a&sslmode=require"),
            Ok(false)
        );
        for (word, why) in [
            ("postgresql://elsewhere/db?sslmode=prefer", "in the clear"),
            (
                "postgresql://elsewhere/db?sslmode=full",
                "verify-full is expected",
            ),
            (
                "postgresql://elsewhere/db?sslrootcert=/nowhere/ca%2epem",
                "/nowhere/ca.pem: No such file",
            ),
            (
                "postgresql://elsewhere/db?sslcert=/nowhere/own.pem",
                "named together",
            ),
            ("postgresql:///db?host=/run/a,elsewhere", "sockets alone"),
        ] {
            let refused = tls(word).unwrap_err();
            assert!(refused.contains(why), "{word}: {refused}");
        }
    }
}
