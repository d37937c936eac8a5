//! Pairs to run a program on: at and near equilibria, arbitrary ones, and damaged ones. Each has
//! a play sheet of the game. Also pairs made for each refusal, and games of full size.

use crate::listing::{amount, Amount};
use crate::samples::Pair;
use crate::Refusal;
use generator::aim::{aim_at_game, aim_at_plan};
use generator::damage::random_damage;
use generator::games::random_game;
use generator::large::{comb, most_nodes, most_sets, most_sets_of_one};
use generator::named::{own_chain, row_of_sets, wide_decision};
use generator::near::pairs_near;
use generator::plans::{random_plan, random_pure_plan};
use generator::refused_plans::misfits;
use generator::refused_sheets::{beyond_the_limit, without_odds, wrong_fillings, wrong_lengths};
use generator::rng::Rng;
use generator::shape::{random_count, Shape};
use generator::sheets::{random_sheet, sheet_of};
use generator::slow::{slow_game, slow_games_of_full_size, Slow};
use generator::tables::{GameTables, PlanWeights};
use reference::game::{check_game, Game, Player};
use reference::limits::MOST_ENTRIES;
use reference::plan::{check_plan, Plan};

/// As many in a hundred games are of up to 4,095 nodes.
const LARGE_PERCENT: usize = 1;

/// Pairs over one game: those that fit, and about as many that are damaged.
pub fn draw(rng: &mut Rng) -> Result<Vec<Pair>, Refusal> {
    let large = rng.percent(LARGE_PERCENT);
    let game = draw_game(rng, large).bytes()?;
    let accepted = check_game(&game)?;
    let plans = match large {
        true => any_plans(rng, &accepted),
        false => pairs_near(rng, &accepted),
    };
    let mut pairs = Vec::new();
    for plan in plans {
        let plan = plan.bytes()?;
        let sheet = draw_sheet(rng, &check_plan(&accepted, &plan)?)?;
        pairs.push(Pair {
            game: game.clone(),
            plan,
            sheet,
        });
    }
    if let Some(pair) = rng.pick(&pairs) {
        let plan = check_plan(&accepted, &pair.plan)?;
        let damaged = damaged(rng, pair, &plan);
        pairs.extend(damaged);
    }
    Ok(pairs)
}

fn draw_game(rng: &mut Rng, large: bool) -> GameTables {
    let shape = match rng.below(5) {
        0 => {
            let slow = Slow::random(rng, if large { MOST_ENTRIES } else { 120 });
            return slow_game(rng, &slow);
        }
        1 if large => Shape::deep(rng),
        _ if large => Shape::full(rng),
        1 => Shape::crowded(rng, 60),
        2 => Shape::random(rng, 300, 12),
        _ => Shape::random(rng, 60, 6),
    };
    random_game(rng, &shape)
}

fn any_plans(rng: &mut Rng, game: &Game) -> Vec<PlanWeights> {
    let denominators = [random_count(rng), random_count(rng)];
    vec![
        random_plan(rng, game, denominators),
        random_pure_plan(rng, game),
    ]
}

/// A sheet of a plan's probabilities, one made for a refusal out of it, or any.
fn draw_sheet(rng: &mut Rng, plan: &Plan) -> Result<Vec<u8>, Refusal> {
    let game = plan.game();
    let sheet = sheet_of(rng, plan);
    let file = sheet.bytes(game)?;
    let player = Player::BOTH[rng.below(2)];
    let changed = match rng.below(8) {
        0 => without_odds(rng, game, &sheet, player),
        1 => beyond_the_limit(rng, game, &sheet, player),
        2 => Some(random_sheet(rng, game)),
        3 => return Ok(random_damage(rng, &file)),
        4 => {
            let wrong = [wrong_lengths(game, &file), wrong_fillings(game, &file)];
            let wrong = rng.pick(&wrong.concat()).cloned();
            return Ok(wrong.unwrap_or(file));
        }
        _ => None,
    };
    changed.map_or(Ok(file), |changed| changed.bytes(game))
}

/// Two pairs made for a refusal each, a plan that does not fit, and files damaged at random.
fn damaged(rng: &mut Rng, pair: &Pair, plan: &Plan) -> Vec<Pair> {
    let mut games = vec![random_damage(rng, &pair.game)];
    let mut plans = vec![random_damage(rng, &pair.plan)];
    for _ in 0..2 {
        match rng.between(1, 16) as Refusal {
            refusal @ 1..=13 => games.extend(aim_at_game(rng, plan.game(), refusal)),
            refusal => plans.extend(aim_at_plan(rng, plan, refusal)),
        }
    }
    let misfits = misfits(rng, plan);
    plans.extend(rng.pick(&misfits).cloned());
    let of_game = |game| Pair {
        game,
        plan: pair.plan.clone(),
        sheet: pair.sheet.clone(),
    };
    let of_plan = |plan| Pair {
        game: pair.game.clone(),
        plan,
        sheet: pair.sheet.clone(),
    };
    let games = games.into_iter().map(of_game);
    games.chain(plans.into_iter().map(of_plan)).collect()
}

/// Pairs of files made for each refusal out of a plan that fits, and some damaged at random.
pub fn damaged_pairs(rng: &mut Rng, file: &[u8], plan: &Plan, bytes: &[u8]) -> Vec<[Vec<u8>; 2]> {
    let games = (1..=13).filter_map(|refusal| aim_at_game(rng, plan.game(), refusal));
    let with_plan_or_none = |game: Vec<u8>| [[game.clone(), bytes.to_vec()], [game, Vec::new()]];
    let mut pairs: Vec<[Vec<u8>; 2]> = games.flat_map(with_plan_or_none).collect();
    let plans = (14..=16).filter_map(|refusal| aim_at_plan(rng, plan, refusal));
    pairs.extend(plans.map(|plan| [file.to_vec(), plan]));
    for _ in 0..4 {
        pairs.push([file.to_vec(), random_damage(rng, bytes)]);
        pairs.push([random_damage(rng, file), bytes.to_vec()]);
    }
    pairs
}

/// Games of full size and of full length, of one move a set and of many.
pub fn large_games(rng: &mut Rng) -> Vec<GameTables> {
    let mut games = vec![
        most_nodes(),
        most_sets(),
        most_sets_of_one(),
        comb(|level| Player::BOTH[level % 2], 0),
        comb(|_| Player::Two, 7),
        own_chain(255),
        row_of_sets(Player::One, 255),
        row_of_sets(Player::Two, 255),
        wide_decision(64),
    ];
    games.extend(slow_games_of_full_size().into_iter().map(|(_, game)| game));
    for _ in 0..4 {
        let (full, deep) = (Shape::full(rng), Shape::deep(rng));
        games.extend([full, deep].map(|shape| random_game(rng, &shape)));
    }
    games
}

/// How often each answer was met among some pairs.
#[derive(Debug, Default)]
pub struct Met {
    pub pairs: usize,
    /// By number; 0 are the pairs that fit.
    pub refusals: [usize; 17],
    pub accepted: usize,
    pub deviations: [usize; 2],
    /// Deviations whose gain is below a thousandth.
    pub small_gains: usize,
}

impl Met {
    /// Takes in what was printed for a pair.
    pub fn count(&mut self, printed: &str) {
        self.pairs += 1;
        let refusal = printed.strip_prefix("refusal ").map(str::trim_end);
        let refusal = refusal.and_then(|number| number.parse().ok()).unwrap_or(0);
        if let Some(met) = self.refusals.get_mut::<usize>(refusal) {
            *met += 1;
        }
        self.accepted += usize::from(printed.ends_with("\naccepted\n"));
        for (player, met) in (1..).zip(&mut self.deviations) {
            *met += usize::from(printed.contains(&format!("\ndeviation player {player} ")));
        }
        let gain = amount(printed, "deviation player ");
        self.small_gains += usize::from(gain.is_some_and(|gain| is_small(&gain)));
    }
}

/// Below a thousandth of a payoff point.
fn is_small(amount: &Amount) -> bool {
    i128::from(amount.count) * 1_000 < i128::from(amount.base)
}
