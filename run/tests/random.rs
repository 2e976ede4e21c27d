//! Random epochs: the served folder is as one in which programs did the same; whatever kills the server, each epoch is done or isn't.
mod common;
use common::*;
use hidewillow_run::wire::*;
use std::fs;
use std::path::Path;

fn steps(model: &mut Model, client: &mut Client, random: &mut Random) -> Vec<Step> {
    let count = 1 + random.below(15);
    (0..count).filter_map(|_| model.step(client, random)).collect()
}

#[test]
fn as_in_a_folder_of_its_own() {
    for seed in 1..30 {
        let (served, own) = (folder("served"), folder("own"));
        let mut client = Client::start(&served, &[]);
        let mut random = Random(seed * 7919);
        let mut model = Model::new(&mut client);
        for round in 0..40 {
            let steps = steps(&mut model, &mut client, &mut random);
            assert!(client.epoch(steps.clone()), "seed {seed} round {round}: {}\n{steps:#?}", client.why);
            steps.iter().for_each(|step| perform(&own, step));
            assert_eq!(picture(&served), picture(&own), "seed {seed} round {round}: {steps:#?}");
        }
        // All versions that the client knows are good, also the newest server's.
        let looks = model.names.keys().map(|name| Step::Look { name: name.clone(), version: model.version(name) });
        assert!(client.epoch(looks.collect()));
        let told = Model::read(&mut client);
        assert_eq!(told.names.keys().collect::<Vec<_>>(), model.names.keys().collect::<Vec<_>>());
        fs::remove_dir_all(served).unwrap();
        fs::remove_dir_all(own).unwrap();
    }
}

/// Whether the epoch was accepted before the server was gone.
fn try_epoch(client: &mut Client, steps: Vec<Step>) -> Option<bool> {
    client.epochs += 1;
    let number = client.epochs;
    client.link.send(Request::Epoch { number, falls_with_earlier: true, steps }).ok()?;
    match client.reply().ok()? {
        Reply::Accepted { .. } => Some(true),
        other => panic!("{other:?}"),
    }
}

/// Epochs until the server is killed: the folder is as before the last one or as after it.
fn until_death(served: &Path, own: &Path, options: &[&str], random: &mut Random) -> bool {
    let mut client = Client::start(served, options);
    let mut model = Model::read(&mut client);
    for _ in 0..100 {
        let before = picture(own);
        let steps = steps(&mut model, &mut client, random);
        let accepted = try_epoch(&mut client, steps.clone());
        steps.iter().for_each(|step| perform(own, step));
        if accepted.is_some() {
            continue;
        }
        drop(Client::start(served, &[]));
        let now = picture(served);
        assert!(now == before || now == picture(own), "neither before nor after: {steps:#?}\n{now:#?}\n{before:#?}");
        // What is there is what both go on from.
        fs::remove_dir_all(own).unwrap();
        let copied = std::process::Command::new("cp").arg("-a").arg(served).arg(own).status().unwrap();
        assert!(copied.success());
        fs::remove_dir_all(own.join(".hidewillow-files")).unwrap();
        return now != before;
    }
    panic!("it lives");
}

#[test]
fn whole_or_not_at_all_at_each_moment() {
    let (served, own) = (folder("killed"), folder("beside"));
    let mut random = Random(4711);
    let mut done: u64 = 0;
    for _ in 0..deaths() {
        let moment = random.below(120).to_string();
        done += u64::from(until_death(&served, &own, &["--die-at", &moment], &mut random));
    }
    assert!(done > 0 && done < deaths(), "{done} of {} were done", deaths());
}
