//! Inputs from a seed: those that the reference makes for one random network, and for each of them a mutated one.

use plancheck_reference::cases::{
    damage, largest_questions, random_questions, Call, Ledger, Question, Random,
};

/// One round in so many has networks of the largest size too.
const ROUNDS_TO_LARGEST: u64 = 256;

/// The inputs of one round.
pub fn round(seed: u64) -> Vec<Question> {
    let mut random = Random::new(!seed);
    let mut questions = random_questions(seed);
    if seed % ROUNDS_TO_LARGEST == 0 {
        questions.extend(largest_questions(seed));
    }
    let mut inputs = Vec::new();
    for question in questions {
        let mutated = mutate(&mut random, &question);
        inputs.push(question);
        inputs.push(mutated);
    }
    inputs
}

/// Texts, ledger or buffer, and call, each changed or kept.
fn mutate(random: &mut Random, question: &Question) -> Question {
    let mut mutated = question.clone();
    if random.chance(35) {
        mutated.network = damage(random, &question.network);
    }
    if random.chance(45) {
        mutated.plan = damage(random, &question.plan);
    }
    if random.chance(3) {
        mutated.plan.clear();
    }
    let has_second = matches!(question.call, Call::CheckSheet | Call::ComparePlans);
    if random.chance(30) && has_second {
        mutated.second = damage(random, &question.second);
    }
    if random.chance(30) {
        mutated.ledger = mutate_ledger(random, &question.ledger);
    }
    if random.chance(10) {
        mutated.second_ledger.length = draw_room(random, question.second_ledger.length);
    }
    if random.chance(30) {
        mutated.buffer.length = draw_room(random, question.buffer.length);
    }
    // Any call that takes a plan may take this one.
    let has_plan = !matches!(question.call, Call::PlanFromListing | Call::PlanFromSheet);
    if random.chance(40) && has_plan {
        mutated.call = draw_call(random);
        if matches!(mutated.call, Call::CarryOn { .. }) {
            mutated.buffer.length = draw_room(random, 2 * question.network.len());
        }
    }
    mutated
}

/// A few bytes more or fewer, or any number of them up to as many.
fn draw_room(random: &mut Random, length: usize) -> usize {
    let more = length + random.index(9);
    let fewer = length.saturating_sub(random.index(9));
    let any = random.index(length + 1);
    random.pick(&[more, fewer, any])
}

/// A little longer or shorter, with other numbers at some places.
fn mutate_ledger(random: &mut Random, ledger: &Ledger) -> Ledger {
    let mut numbers = ledger.numbers();
    let longer = random.pick(&[0, 0, 1, 2, 9, 60]);
    numbers.resize(numbers.len() + longer, random.draw() as u32);
    numbers.truncate(numbers.len() - random.index(numbers.len().min(9) + 1));
    for _ in 0..random.index(4) {
        if !numbers.is_empty() {
            let place = random.index(numbers.len());
            let any = random.draw() as u32;
            let old = numbers[place];
            numbers[place] =
                random.pick(&[0, u32::MAX, old.wrapping_add(1), old.wrapping_sub(1), any]);
        }
    }
    Ledger {
        length: numbers.len(),
        start: numbers,
        fill: 0,
    }
}

fn draw_call(random: &mut Random) -> Call {
    match random.between(0, 4) {
        0 => Call::CheckNetwork,
        1 => Call::CheckPlan,
        2 => Call::CarryOn {
            boundary: draw_near(random, 9),
        },
        _ => Call::LinkState {
            boundary: draw_near(random, 12),
            link: draw_near(random, 6),
        },
    }
}

/// Mostly a small number; now and then any of 32 bits.
fn draw_near(random: &mut Random, most: u64) -> u64 {
    if random.chance(95) {
        return random.between(0, most);
    }
    u64::from(random.draw() as u32)
}
