//! Trails in text, played on the model.

use referee::configuration::Configuration;
use referee::event::Event;
use referee::step;
use referee::text;
use referee::trail::Trail;

pub struct Played {
    pub numbers: Vec<u8>,
    pub configuration: Configuration,
}

pub fn play(trail: &str) -> Played {
    let bytes = text::to_bytes(trail).expect("the text can be parsed");
    let mut numbers = Vec::new();
    let configuration = Trail::read(&bytes).run(|_, _, outcome| {
        numbers.push(step::number(outcome).code());
    });
    Played {
        numbers,
        configuration: configuration.expect("the trail is good"),
    }
}

/// The configuration after a trail whose every event is accepted.
pub fn after(trail: &str) -> Configuration {
    let played = play(trail);
    let refused = played.numbers.iter().position(|&number| number != 0);
    assert_eq!(refused, None, "an event is refused: {:?}", played.numbers);
    played.configuration
}

/// The number of one event on a configuration.
pub fn number(configuration: &Configuration, [kind, node, other]: [u8; 3], value: u64) -> u8 {
    let event = Event {
        kind,
        node,
        other,
        value,
    };
    step::number(&configuration.step(&event)).code()
}

/// A child of the root misses (`load-miss` or `store-miss`) and is granted what it asks for, `shared` or `sole`.
pub fn granted(miss: &str, child: usize, choice: &str) -> String {
    format!(
        "
    {miss} {child}
    send-acquire {child}
    take-acquire 0 from {child}
    send-grant 0 {choice}
    take-grant {child}
    send-grant-ack {child}
    take-grant-ack 0
"
    )
}

/// Parents 0, 0: node 1 is TT and dirty with 9, node 2 has load-missed and the root has taken it (Clear).
pub const NODE_2_ASKS_WHILE_NODE_1_IS_DIRTY: &str = "
    tree 0 0 first 7
    store-miss 1
    send-acquire 1
    take-acquire 0 from 1
    send-grant 0 sole
    take-grant 1
    send-grant-ack 1
    take-grant-ack 0
    store 1 value 9
    load-miss 2
    send-acquire 2
    take-acquire 0 from 2
";
