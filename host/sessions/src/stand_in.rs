//! A store that plays the model's plans.

use domain_model::{Buffers, Call, Fault, Model, Reply, STOPPED, Store, Verdict, plan, table};

/// A stand-in: it reads the buffers with the model's decoder and plays the model's plan with the
/// lowest free places. It shows that the harness finds errors of a store: with an error switched on
/// here, the right model has to differ from it.
pub struct StandIn {
    pub fault: Option<Fault>,
}

impl Store for StandIn {
    fn call(&self, buffers: &mut Buffers, call: &Call, budget: u64) -> Reply {
        let model = Model { fault: self.fault };
        let decoded = buffers.decode(self.fault);
        let reading = table::reading(&decoded);
        let verdict = model.verdict(buffers.lengths(), &reading, &buffers.memory, call);
        let told = verdict.reply(call, decoded.as_ref().ok(), budget);
        let Verdict::Work(work) = &verdict else {
            return told.expect("a holding has its place");
        };
        // An error that asks too little finds no place, and stores nothing.
        let steps = plan::lowest(model, buffers, call, work).unwrap_or_default();
        let made = steps
            .len()
            .min(usize::try_from(budget).unwrap_or(usize::MAX));
        plan::play(&steps[..made], buffers);
        // An error in the count shows in what is told, not in what is stored.
        let need = match self.fault {
            Some(
                Fault::StepTooMany
                | Fault::AdvanceTakesTwoStepsForNothing
                | Fault::GivenCellsTakeNoSteps
                | Fault::RaisedNewEntryCountedTwice
                | Fault::EntryRaisedTwiceCountedTwice,
            ) => work.need,
            _ => steps.len() as u64,
        };
        let done = need <= budget;
        Reply {
            code: if done { 0 } else { STOPPED },
            steps: need.min(budget),
            handle: if done { work.handle } else { 0 },
            ..Reply::default()
        }
    }
}
