//! A machine whose shadow tables lag behind a store until INVLPG.

use flamecurl::{event, setup, Sizes, Step};

fn main() {
    let map = [100, 101, 102, 103, 104, 105];
    let sizes = Sizes {
        frames: 6,
        processors: 1,
        share: 4,
        base: 1 << 20,
    };
    let mut words = vec![0; 512 * 6];
    for (word, value) in [(0, 4103), (512, 8199), (1024, 12295), (1536, 16391)] {
        words[word] = value;
    }
    let (mut pool, mut records, mut slots) = (vec![0; 512 * 4], [0; 2 * 4], [0; 24]);
    setup(&map, &[0], &mut pool, &mut records, &mut slots, sizes).expect("the sizes fit");
    let access = Step::Access {
        address: 8,
        request: 0,
    };
    let store = Step::Store {
        word: 1536,
        value: 20487,
    };
    let steps = [
        access,
        access,
        store,
        access,
        Step::Invlpg { address: 8 },
        access,
        access,
        Step::Drop { slot: 8 },
    ];
    for step in steps {
        let answer = event(
            &map,
            &mut words,
            &mut pool,
            &mut records,
            &mut slots,
            sizes,
            step.of(0),
        );
        println!("{answer:?}");
    }
}
