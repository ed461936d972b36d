//! Who asks, and what that account may ask. The account is the one that the system says a connection is of; a gateway, which has
//! authenticated its own clients, names theirs.

use super::access::{Access, Rights, Whose};
use crate::journal::{user_of_subject, Live};
use crate::names::{Names, Sort};
use crate::writer;
use nix::sys::socket::{getsockopt, sockopt::PeerCredentials};
use nix::unistd::{getgrouplist, Group, Uid, User};
use records::Record;
use std::ffi::CString;
use std::os::fd::AsRawFd;
use std::sync::Arc;

/// An account, as established by the connection's listener.
#[derive(Clone, PartialEq, Eq, Debug)]
pub struct Who {
    pub account: Arc<str>,
    /// The account that speaks for it, where that is another.
    pub via: Option<Arc<str>>,
    pub rights: Rights,
}

/// Who may come in.
pub enum Gate {
    /// The one who runs the server, and root: both speak for everyone.
    Owner(Uid),
    Listed(Access),
}

/// The user's number of the process at the other end, by the kernel.
pub fn peer(stream: &impl AsRawFd) -> nix::Result<Uid> {
    let credentials = getsockopt(stream.as_raw_fd(), PeerCredentials)?;
    Ok(Uid::from_raw(credentials.uid()))
}

/// The account that this program runs as.
pub fn own_account() -> String {
    login(Uid::current())
}

/// The login name of a user's number; `uid:1234` where the system has none for it.
fn login(uid: Uid) -> String {
    match User::from_uid(uid) {
        Ok(Some(user)) => user.name,
        _ => format!("uid:{uid}"),
    }
}

/// Whether an account is a member of a group, by the system.
fn is_member(account: &str, group: &str) -> bool {
    let (Ok(Some(user)), Ok(Some(group))) = (User::from_name(account), Group::from_name(group))
    else {
        return false;
    };
    let Ok(name) = CString::new(account) else {
        return false;
    };
    getgrouplist(&name, user.gid).is_ok_and(|all| all.contains(&group.gid))
}

impl Gate {
    /// The account at the other end of a connection, with what it may ask.
    pub fn who(&self, uid: Uid) -> Who {
        let account = login(uid);
        let rights = match self {
            Gate::Owner(owner) if uid == *owner || uid.is_root() => Rights::of_everyone(),
            Gate::Owner(_) => Rights::default(),
            Gate::Listed(access) => access.rights(&account, |group| is_member(&account, group)),
        };
        Who {
            account: account.into(),
            via: None,
            rights,
        }
    }

    /// An account that a proxy names, which has signed it in; `via` is whom the proxy runs as.
    pub fn named(&self, account: &str, via: &Arc<str>) -> Who {
        let rights = match self {
            Gate::Owner(_) => Rights::default(),
            Gate::Listed(access) => access.rights(account, |group| is_member(account, group)),
        };
        Who {
            account: account.into(),
            via: Some(via.clone()),
            rights,
        }
    }

    /// Somebody of whom the system says nothing but where it is.
    pub fn nobody(&self, place: &str) -> Who {
        Who {
            account: place.into(),
            via: None,
            rights: Rights::default(),
        }
    }

    /// The account that a gateway speaks for; or why it may not.
    pub fn speaking_for(&self, gateway: &Who, account: &str) -> Result<Who, Told> {
        let by = &gateway.account;
        if !gateway.rights.everyone {
            let why = format!("{by} may not speak for {account}");
            return Err(Told::Barred(why));
        }
        let Gate::Listed(access) = self else {
            let why = "as ACCOUNT needs an access file (serve --access), which says what that account may ask";
            return Err(Told::Wrong(why.to_string()));
        };
        Ok(Who {
            account: account.into(),
            via: Some(by.clone()),
            rights: access.rights(account, |group| is_member(account, group)),
        })
    }
}

/// What is reported in the place of a reply.
#[derive(Clone, PartialEq, Eq, Debug)]
pub enum Told {
    /// The account may not ask it.
    Barred(String),
    /// It cannot be meant so.
    Wrong(String),
}

impl Who {
    pub fn is_user(&self, user: u16, names: &Names) -> bool {
        let is = |whose: &Whose| match whose {
            Whose::Number(number) => *number == user,
            Whose::Name(name) => names.name(Sort::User, user) == Some(name),
        };
        self.rights.users.iter().any(is)
    }

    /// Whether a request may be put to the engine, as its sessions are now; or why not.
    ///
    /// A subject that is not live is nobody's, and a kind that is no request's nobody may ask: the engine refuses both, whoever asks.
    pub fn may(&self, record: &Record, live: &Live, sessions: &[u64]) -> Result<(), String> {
        if self.rights.everyone {
            return Ok(());
        }
        let is_clerk = !self.rights.users.is_empty();
        let may = match record.kind() {
            32..=37 => self.rights.administers,
            40 => self.is_user(record.b(), &live.names),
            41..=43 | 50..=52 | 56 | 57 | 59 => {
                let user = user_of_subject(record.a(), sessions);
                is_clerk && user.is_none_or(|user| self.is_user(user, &live.names))
            }
            48 | 49 => is_clerk,
            58 | 60 => !self.rights.is_none(),
            _ => true,
        };
        match may {
            true => Ok(()),
            false => Err(self.barred(record, live, sessions)),
        }
    }

    fn barred(&self, record: &Record, live: &Live, sessions: &[u64]) -> String {
        let account = &self.account;
        let line = writer::line(&record.0, &live.names);
        let say = |user: u16| live.names.say(Sort::User, user);
        let is_clerk = !self.rights.users.is_empty();
        match record.kind() {
            32..=37 => format!("{account} does not administer: {line}"),
            40 if is_clerk => format!("{account} may not act for {}", say(record.b())),
            _ if !is_clerk => format!("{account} acts for no user: {line}"),
            _ => {
                let subject = live.names.say(Sort::Subject, record.a());
                let user = user_of_subject(record.a(), sessions);
                let of = user.map_or(String::new(), |user| format!(" of {}", say(user)));
                format!("{account} may not act for {subject}{of}")
            }
        }
    }

    /// Whether questions may be asked that change nothing: who, finish, why.
    pub fn may_question(&self) -> Result<(), String> {
        match self.rights.is_none() {
            true => Err(format!("{} has no authority here", self.account)),
            false => Ok(()),
        }
    }

    /// Whether the journal may be read.
    pub fn may_read(&self) -> Result<(), String> {
        match self.rights.reads || self.rights.everyone {
            true => Ok(()),
            false => Err(format!("{} may not read the journal", self.account)),
        }
    }
}

#[cfg(test)]
mod tests {
    use super::*;
    use records::Set;

    /// Every kind asked by every authority, as the table of docs/SERVE.md has it.
    #[test]
    fn each_authority_may_ask_its_kinds() {
        let access = "account anna is user anna\naccount mueller administers\naccount router speaks for everyone\naccount revision reads\naccount both is user 301\naccount both administers\n";
        let gate = Gate::Listed(Access::of(access.as_bytes()).unwrap());
        let of = |account: &str| match &gate {
            Gate::Listed(access) => Who {
                account: account.into(),
                via: None,
                rights: access.rights(account, |_| false),
            },
            Gate::Owner(_) => unreachable!(),
        };
        let mut live = Live::new(Names::default());
        live.names.give(Sort::User, 300, b"anna");
        let mut sessions = vec![0; 2432];
        sessions[1] = 1 << 10 | 300;
        sessions[2] = 1 << 10 | 301;
        let kinds = |account: &str, a: u16, b: u16| -> Vec<u8> {
            let who = of(account);
            let may = |kind: &u8| {
                let record = Record::new(*kind, 0, a, b, 0, 0);
                who.may(&record, &live, &sessions).is_ok()
            };
            let asked = [
                32, 33, 34, 35, 36, 37, 40, 41, 42, 43, 48, 49, 50, 51, 52, 56, 57, 58, 59, 60,
            ];
            asked.iter().copied().filter(may).collect()
        };
        let own = [40, 41, 42, 43, 48, 49, 50, 51, 52, 56, 57, 58, 59, 60];
        assert_eq!(kinds("anna", 1, 300), own);
        assert_eq!(kinds("anna", 2, 301), [48, 49, 58, 60]);
        assert_eq!(kinds("mueller", 1, 300), [32, 33, 34, 35, 36, 37, 58, 60]);
        assert_eq!(kinds("revision", 1, 300), [58, 60]);
        assert_eq!(kinds("router", 2, 301).len(), 20);
        assert_eq!(kinds("both", 2, 301).len(), 20);
        assert_eq!(kinds("both", 1, 300).len(), 10);
        assert_eq!(kinds("stranger", 1, 300), [0u8; 0]);
        // What the engine refuses whoever asks it.
        let dead = Record::claim(9, 0, 0);
        assert_eq!(of("anna").may(&dead, &live, &sessions), Ok(()));
        assert!(of("mueller").may(&dead, &live, &sessions).is_err());
        let why = |account: &str, record: Record| of(account).may(&record, &live, &sessions);
        let barred = Err("both may not act for subject 1 of anna".to_string());
        assert_eq!(why("both", Record::claim(1, 0, 0)), barred);
        let barred = Err("anna may not act for user 301".to_string());
        let create = Record::create_subject(5, 301, Set::EMPTY);
        assert_eq!(why("anna", create), barred);
        let barred = Err("anna does not administer: delete user anna".to_string());
        assert_eq!(why("anna", Record::delete_user(300)), barred);
        let barred = Err("revision acts for no user: open order 7 of template 0".to_string());
        assert_eq!(why("revision", Record::open_order(7, 0)), barred);
        assert!(of("revision").may_read().is_ok() && of("anna").may_read().is_err());
        assert!(of("anna").may_question().is_ok() && of("stranger").may_question().is_err());
    }

    #[test]
    fn a_gateway_names_its_clients() {
        let access = "account router speaks for everyone\naccount anna is user anna\n";
        let gate = Gate::Listed(Access::of(access.as_bytes()).unwrap());
        let who = |rights: Rights| Who {
            account: "router".into(),
            via: None,
            rights,
        };
        let anna = gate.speaking_for(&who(Rights::of_everyone()), "anna");
        let anna = anna.unwrap();
        assert_eq!(
            (&*anna.account, anna.via.as_deref()),
            ("anna", Some("router"))
        );
        assert_eq!(anna.rights.users.len(), 1);
        let barred = gate.speaking_for(&who(Rights::default()), "anna");
        assert!(matches!(barred, Err(Told::Barred(_))));
        let none = Gate::Owner(Uid::from_raw(5));
        let told = none.speaking_for(&who(Rights::of_everyone()), "anna");
        assert!(matches!(told, Err(Told::Wrong(_))));
        assert!(none.who(Uid::from_raw(6)).rights.is_none());
        assert!(none.who(Uid::from_raw(5)).rights.everyone);
        assert!(none.who(Uid::from_raw(0)).rights.everyone);
    }
}
