//! Two crews in the other implementation, beside two books: document 02's sentences told from counts alone.

use mazhoketh_tests::oracle::book::Book;
use mazhoketh_tests::oracle::crews::{self, At, LentBoth};
use mazhoketh_tests::oracle::machine::{Lent, Ready, State};
use mazhoketh_tests::oracle::prng::Prng;
use mazhoketh_tests::oracle::{nets, plans, Refusal};

/// The books of both crews.
struct Books([Book; 2]);

impl Books {
    /// The ending that a pick would get: 18, 10, 12, 13, 19 or none.
    fn refuses(&self, pick: usize) -> Option<u32> {
        let (crew, worker) = (pick / 16, pick % 16);
        let own = self
            .0
            .get(crew)
            .map_or(Some(18), |book| book.refuses(worker));
        own.or_else(|| self.0[1 - crew].is_inside(worker).then_some(19))
    }

    /// How many picks are taken, and the ending.
    fn picks(&mut self, picks: &[u8]) -> (u32, Option<Refusal>) {
        for (index, pick) in picks.iter().map(|&pick| usize::from(pick)).enumerate() {
            if let Some(number) = self.refuses(pick) {
                return (index as u32, Some(Refusal::at(number, index)));
            }
            self.0[pick / 16].counts[pick % 16] += 1;
        }
        (picks.len() as u32, None)
    }

    /// The ready sets: "until then the other's ready set leaves it out".
    fn ready(&self) -> [Ready; 2] {
        let ready =
            |crew: usize| Ready::of(16, |worker| self.refuses(16 * crew + worker).is_none());
        [0, 1].map(ready)
    }
}

/// Runs both crews over a random net to their ends; how often 19 was met.
fn finish(rng: &mut Prng) -> usize {
    let matrix = nets::random_net(rng, 12);
    let plan = plans::random_plan(rng, &matrix);
    let movements = [(); 2].map(|_| nets::random_movements(rng, matrix.n));
    let mut books = Books([0, 1].map(|crew| Book::new(&matrix, &movements[crew], &plan)));
    let groups = plan.flat();
    let lent = LentBoth {
        run: Lent::new(&matrix, &movements[0], &plan, &groups),
        movements1: &movements[1],
    };
    let mut at = [(); 2].map(|_| At {
        state: State::fresh(),
        sums: vec![0; matrix.n as usize],
    });
    let any: Vec<u8> = (0..34).collect();
    let mut elsewhere = 0;
    loop {
        let ready = crews::ready(&lent, &at);
        assert_eq!(ready, Ok(books.ready()));
        let can_move: Vec<u8> = (0..32)
            .filter(|&pick| books.refuses(pick.into()).is_none())
            .collect();
        let finished = books.0.iter().all(Book::is_finished);
        assert_eq!(can_move.is_empty(), finished, "some worker can move");
        if finished {
            break;
        }
        let among = if rng.chance(20) { &any } else { &can_move };
        let picks = plans::random_picks(rng, among, 20);
        let picked = crews::picks(&lent, &mut at, &picks);
        assert_eq!((picked.taken, picked.stopped), books.picks(&picks));
        elsewhere += usize::from(picked.stopped.is_some_and(|refusal| refusal.number == 19));
        for (at, book) in at.iter().zip(&books.0) {
            assert_eq!(at.state.made, book.counts);
        }
    }
    for (at, movements) in at.iter().zip(&movements) {
        let product = matrix.rows().product(movements);
        let in_order = plan.order.iter().map(|&freedom| product[freedom as usize]);
        assert!(at.sums.iter().copied().eq(in_order), "its own product");
    }
    elsewhere
}

#[test]
fn random_runs() {
    let rng = &mut Prng::new(201);
    let elsewhere: usize = (0..2_000).map(|_| finish(rng)).sum();
    assert!(elsewhere >= 1_000, "19 was met {elsewhere} times");
}
