//! The tables of a database are made and changed by steps, each run once and compared with its sum. Where there is no server (tools/postgresql),
//! nothing of this is tried, and that is said.

mod common;

use common::{database, room, run, Place, Server, POLICY};

/// A database of its own, which has no tables yet; it goes with this.
struct Fresh {
    main: Place,
    name: String,
}

impl Fresh {
    fn new(name: &str) -> Option<Fresh> {
        let Some(journal) = database() else {
            eprintln!("{name}: not tried, since there is no PostgreSQL");
            return None;
        };
        let main = Place {
            journal,
            desk: Some("nobody".to_string()),
            room: room(name),
        };
        let name = format!("{name}_{}", std::process::id());
        main.psql(&format!("CREATE DATABASE {name}"));
        Some(Fresh { main, name })
    }

    fn place(&self, desk: &str) -> Place {
        let address = &self.main.journal;
        Place {
            journal: address.replace("/postgres?", &format!("/{}?", self.name)),
            desk: Some(desk.to_string()),
            room: self.main.room.clone(),
        }
    }
}

impl Drop for Fresh {
    fn drop(&mut self) {
        let name = &self.name;
        self.main.psql(&format!("DROP DATABASE {name} (FORCE)"));
    }
}

fn steps(place: &Place) -> String {
    let all = "SELECT string_agg(number::text, ',' ORDER BY number) FROM mishantral.migration";
    place.psql(all)
}

#[test]
fn servers_that_begin_at_once_make_the_tables_once() {
    let Some(fresh) = Fresh::new("races") else {
        return;
    };
    let places: Vec<Place> = (0..4).map(|at| fresh.place(&format!("d{at}"))).collect();
    std::thread::scope(|scope| {
        let start = |place: &Place| {
            let desk = place.desk.clone().unwrap();
            let server = place.start_at(&format!("{desk}.sock"), &[POLICY]);
            server.lines("open order 7 of template breakdown\n")
        };
        let all: Vec<_> = places
            .iter()
            .map(|place| scope.spawn(move || start(place)))
            .collect();
        for one in all {
            assert_eq!(one.join().unwrap(), ["1 0 GRANTED"]);
        }
    });
    assert_eq!(steps(&places[0]), "1,2,3");
    places.iter().for_each(|place| place.checked("1 requests"));
}

#[test]
fn tables_of_an_earlier_step_are_changed_once_and_others_are_refused() {
    let Some(fresh) = Fresh::new("steps") else {
        return;
    };
    let place = fresh.place("mill");
    let begun: Server = place.start(&[POLICY]);
    begun.lines("open order 7 mill of template breakdown\n");
    drop(begun);
    // As the program before this one left them: without the view of holds, and with others in the place of what came with it.
    place.psql(
        "SET search_path = mishantral; DROP VIEW hold, opening, answered; DROP FUNCTION said, moment; \
         CREATE VIEW opening AS SELECT desk, number FROM request; CREATE VIEW answered AS SELECT desk, number FROM request; \
         DELETE FROM migration WHERE number = 3",
    );
    let (_, why, status) = place.journal(&[]);
    let told = "its tables are of step 2, and this program needs step 3: serve a desk of it once";
    assert_eq!((why.contains(told), status), (true, 2), "{why}");
    let server = place.start(&[]);
    assert_eq!(server.lines("end order mill\n"), ["2 0 GRANTED"]);
    drop(server);
    assert_eq!(steps(&place), "1,2,3");
    assert_eq!(place.rows("SELECT name FROM opening"), ["mill"]);
    place.checked("2 requests");
    // A start changes nothing more.
    let when = "SELECT max(at)::text FROM mishantral.migration";
    let before = place.psql(when);
    drop(place.start(&[]));
    assert_eq!(place.psql(when), before);
    // A later program's tables, and those of a program that is none of ours.
    let refused = |change: &str, told: &str| {
        place.psql(&format!("SET search_path = mishantral; {change}"));
        let socket = place.room.join("refused.sock");
        let serve = ["serve", "--socket", socket.to_str().unwrap()];
        for (why, status) in [
            place.journal(&[]),
            run(&[&serve[..], &place.options()].concat()),
        ]
        .map(|(_, why, status)| (why, status))
        {
            assert!(why.contains(told) && status > 0, "{status}: {why}");
        }
    };
    refused(
        "INSERT INTO migration VALUES (4, 'later', now(), '9.9.9')",
        "this program knows 3 steps: it is older than they are",
    );
    refused(
        "DELETE FROM migration WHERE number = 4; UPDATE migration SET sum = 'other' WHERE number = 2",
        "its tables were made by another program: step 2 is not the one that this program has",
    );
}
