//! docs/CALLS.md: its example, and files that break off.
use model::{Call, Entity, Host, List, Message, Payload, Rules, Setup};

/// C3 of document 01.
fn c3() -> List {
    let message = Message {
        source: 0,
        destination: 1,
        tick: 2,
        payload: Payload::default(),
    };
    let begin = Call::Begin {
        horizon: 9,
        budget: 1_000_000,
    };
    List {
        setup: Setup {
            n: 2,
            lookahead: 3,
            ids: vec![0, 1],
            sources: vec![0, 1],
            counts: vec![1, 1],
            destinations: vec![1, 0],
            lookaheads: vec![0, 3, 0, 3],
        },
        odd: None,
        calls: vec![Call::AddInitial(message), begin, Call::Step],
    }
}

#[test]
fn the_example_of_the_page() {
    let list = c3();
    let mut host = Host::build(Rules::RIGHT, &list.setup).expect("C3 is built");
    let mut lines = vec![words::built_line(&host.counters, &host.state)];
    for call in &list.calls {
        let answer = host.call(call);
        lines.push(words::line(&answer, &host.counters, &host.state));
    }
    let example = lines.iter().map(|line| format!("    {line}"));
    assert!(include_str!("../../../docs/CALLS.md").contains(&example.collect::<String>()));
}

#[test]
fn a_file_that_breaks_off_is_read_up_to_its_last_whole_call() {
    let list = c3();
    let bytes = words::bytes(&words::encode(&list, 0));
    assert_eq!(words::decode(&bytes), std::slice::from_ref(&list));
    for end in 0..bytes.len() {
        let read = words::decode(&bytes[..end]);
        assert!(read.len() <= 1);
        for part in read {
            assert_eq!(part.setup, list.setup);
            assert_eq!(part.calls, list.calls[..part.calls.len()]);
            assert!(part.calls.len() < list.calls.len());
        }
    }
}

#[test]
fn upper_halves_of_ids_and_bytes_behind_a_payload_do_not_count() {
    let mut list = c3();
    if let Call::AddInitial(message) = &mut list.calls[0] {
        message.payload = Payload::of(&[1, 2, 3]);
    }
    let (plain, noisy) = (words::encode(&list, 0), words::encode(&list, 0xabcd));
    assert_ne!(plain, noisy);
    assert_eq!(words::decode(&words::bytes(&noisy)), [list]);
}

#[test]
fn a_plan_of_more_than_4096_entities_or_places_ends_the_file() {
    let plan = |count: usize, lent| Call::Plan {
        n: 1,
        lookahead: 1,
        lent,
        entities: vec![Entity::default(); count],
    };
    let read = |call: &Call| {
        let mut list = c3();
        list.calls.insert(1, call.clone());
        words::decode(&words::bytes(&words::encode(&list, 0)))[0]
            .calls
            .len()
    };
    assert_eq!(read(&plan(4096, 4096)), 4);
    assert_eq!(read(&plan(4097, 0)), 1);
    assert_eq!(read(&plan(0, 4097)), 1);
}

#[test]
fn a_build_of_more_than_8192_lookahead_words_ends_the_file() {
    let read = |count: usize| {
        let mut list = c3();
        list.setup.lookaheads = vec![1; count];
        let read = words::decode(&words::bytes(&words::encode(&list, 0)));
        assert!(read.iter().all(|part| *part == list));
        read.len()
    };
    assert_eq!((read(0), read(5), read(8192), read(8193)), (1, 1, 1, 0));
}

/// Six words to an edge: source, destination, lookahead, bound.
#[test]
fn an_edge_of_a_state_has_its_lookahead_before_its_bound() {
    let mut setup = c3().setup;
    setup.lookaheads = vec![1, 2, 0, 4];
    let mut host = Host::build(Rules::RIGHT, &setup).expect("this is built");
    host.state.edges[0].bound = (7 << 64) + 9;
    let words = words::encode_given(&host.state, &host.counters, &[], 0);
    assert_eq!(words[24..37], [12, 0, 1, 1, 2, 7, 9, 1, 0, 0, 4, 0, 4]);
    let text = words::given_line(&host.counters, &host.state);
    let line = words::Line::of(&text).expect("it is a line");
    assert_eq!(
        line.edges,
        "0:1:10000000000000002:70000000000000009 1:0:4:4"
    );
}

/// The third array of a state given whole: behind 24 words, the edges and no pending event.
#[test]
fn least_inbound_bounds_stand_from_word_128_on() {
    let host = Host::build(Rules::RIGHT, &c3().setup).expect("C3 is built");
    let mut state = host.state.clone();
    (state.horizons, state.inbound) = (vec![5, 1 << 64], vec![(6 << 64) + 7, u128::MAX]);
    let table = |noise: u32| {
        let words = words::encode_given(&state, &host.counters, &[], noise);
        let at = 24 + 1 + 6 * state.edges.len() + 1;
        let end = at + 1 + words[at] as usize;
        assert_eq!(words[end..], [0, 0], "no batch and no calls");
        words[at + 1..end].to_vec()
    };
    let (plain, noisy) = (table(0), table(9));
    assert_eq!(plain[..4], [0, 5, 1, 0]);
    assert_eq!(plain[4..128], [0; 124]);
    assert_eq!(plain[128..], [6, 7, u64::MAX, u64::MAX]);
    assert_eq!(noisy.len(), 256);
    assert_eq!(
        (&noisy[4..128], &noisy[132..]),
        (&[9; 124][..], &[9; 124][..])
    );
    assert_eq!(
        (&noisy[..4], &noisy[128..132]),
        (&plain[..4], &plain[128..])
    );
}

#[test]
fn a_line_is_read_as_it_was_written() {
    let list = c3();
    let mut host = Host::build(Rules::RIGHT, &list.setup).expect("C3 is built");
    host.state.gvt = 0xab;
    let (numbered, tick) = (Payload::of(&[0, 255, 16]), (1 << 64) + 2);
    let mut answer = model::Answer::Accepted;
    for call in &list.calls {
        let call = match call.clone() {
            Call::AddInitial(m) => Call::AddInitial(Message {
                payload: numbered,
                ..m
            }),
            other => other,
        };
        answer = host.call(&call);
    }
    host.state.batch[0].tick = tick;
    let text = words::line(&answer, &host.counters, &host.state);
    let line = words::Line::of(&text).expect("it is a line");
    assert_eq!(line.events(), Some(host.state.batch.clone()));
    assert_eq!((line.name(), line.gvt()), ("batch", Some(0xab)));
    assert_eq!((line.inbound, line.flags), ("3 3", "010"));
    assert_eq!(words::Line::of(text.trim_end()), None);
    assert_eq!(words::Line::of(&text.replacen(" | ", " ", 1)), None);
}
