//! Takes the place of the merge crate's module `link`, which is not to be had. A module sees what its parents keep private,
//! so this is how the oracle calls `Merge::fix`, `check`, `merge`, `model` and `convict`, and reads all that a merge holds.

use crate::*;

/// What a reported fix came to.
#[derive(Clone, Copy, Debug, PartialEq, Eq)]
pub enum Told {
    /// The engine is convicted (refusal 4).
    Faulted,
    /// A cited model has no summary: the fix waits for the first such model.
    Waits,
    /// A cited model is disputed or of another spec (refusal 7).
    Failed,
    Changed,
    Contested,
    Duplicate,
    Dropped,
}

impl Merge {
    pub fn told(&mut self, engine: PublicKey, spec: u16, wire: &TaggedFix) -> Told {
        if self.is_faulted(&engine) {
            return Told::Faulted;
        }
        if wire.models.iter().any(|id| !self.has_summary(id)) {
            self.fix(engine, spec, wire.clone(), &mut Tally::default());
            return Told::Waits;
        }
        self.taken(engine, spec, wire)
    }

    /// A fix none of whose models is missing: what stands in `fix` behind the waiting, with what the merge came to.
    pub fn taken(&mut self, engine: PublicKey, spec: u16, wire: &TaggedFix) -> Told {
        let Some(fix) = self.check(engine, spec, wire) else {
            return Told::Failed;
        };
        match self.merge(fix) {
            Merged::Changed => Told::Changed,
            Merged::Contested => Told::Contested,
            Merged::Duplicate => Told::Duplicate,
            Merged::Dropped => Told::Dropped,
        }
    }

    pub fn summarised(&mut self, summary: &ClientClockModel) {
        let _ = self.model(summary);
    }

    pub fn convicted(&mut self, engine: PublicKey) {
        self.convict(engine);
    }

    /// The convicted engines, ascending.
    pub fn faulted(&self) -> Vec<PublicKey> {
        self.faulted.iter().map(|(engine, ())| *engine).collect()
    }

    /// Every summary held: engine, model id, spec, inputs.
    pub fn summaries(&self) -> Vec<(PublicKey, Hash, u16, Hash)> {
        let mut all = Vec::new();
        for (id, summaries) in self.models.iter() {
            for (engine, model) in summaries {
                all.push((*engine, *id, model.spec, model.inputs));
            }
        }
        all
    }

    /// Whether any engine's summary of a model is held.
    pub fn has_summary(&self, id: &Hash) -> bool {
        !matches!(self.resolve(id), Resolved::Missing)
    }

    /// What waits: for each model the engines, specs and fixes, in their order.
    pub fn waiting(&self) -> impl Iterator<Item = (&Hash, &(PublicKey, u16, TaggedFix))> {
        self.pending.iter().flat_map(|(id, waiting)| waiting.iter().map(move |one| (id, one)))
    }

    /// How many summaries are held.
    pub fn summary_count(&self) -> usize {
        self.models.values().map(BTreeMap::len).sum()
    }

    /// Whether an engine's summary of a model is held.
    pub fn has_said(&self, engine: PublicKey, id: &Hash) -> bool {
        self.models.get(id).is_some_and(|summaries| summaries.contains_key(&engine))
    }

    /// A merge that holds just this of one aircraft, whether or not calls lead to it.
    pub fn holding(
        faulted: &[PublicKey],
        summaries: &[(PublicKey, Hash, u16, Hash)],
        contested: u64,
        held: Vec<Transmission>,
    ) -> Self {
        let mut merge = Self::new(Settings::default());
        for engine in faulted {
            merge.faulted.insert_active(*engine, ());
        }
        for (engine, id, spec, inputs) in summaries {
            let mut all = merge.models.remove(id).unwrap_or_default();
            all.insert(*engine, Model { spec: *spec, inputs: *inputs });
            merge.models.insert_active(*id, all);
        }
        merge.contested = contested;
        if !held.is_empty() {
            merge.tracks.insert_active(0, Track { address: 0, transmissions: held });
        }
        merge
    }

    /// The same merge once more; none of its parts is shared.
    pub fn copied(&self) -> Self {
        Self {
            settings: self.settings,
            tracks: self.tracks.clone(),
            models: self.models.clone(),
            pending: self.pending.clone(),
            faulted: self.faulted.clone(),
            contested: self.contested,
        }
    }
}
