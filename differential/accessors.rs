
// Our own code, which differential/prepare puts behind a copy of the original's conservative.rs.
// It reads and sets private fields and calls private functions one by one; it decides nothing.

/// What an event that was put in has changed: queues, next sequence number and report.
pub type Kept = (
    BTreeMap<LpId, BTreeMap<QueueKey, RemoteEvent>>,
    u64,
    RuntimeReport,
);

/// The process, tick, source and sequence number of each pending event, with the event.
impl<P: ConservativeProcess> ConservativeRuntime<P> {
    pub fn inside_pending(&self) -> Vec<(LpId, Tick, LpId, u64, &RemoteEvent)> {
        let queues = self.queues.iter();
        queues
            .flat_map(|(&lp, queue)| queue.iter().map(move |(key, event)| (lp, key, event)))
            .map(|(lp, &(tick, source, sequence), event)| (lp, tick, source, sequence, event))
            .collect()
    }
}

/// The other private fields.
impl<P: ConservativeProcess> ConservativeRuntime<P> {
    pub fn inside_lookahead(&self) -> SimDuration {
        self.partition.lookahead()
    }

    /// Source, destination and bound of each edge, sources rising, in the order of their rows.
    pub fn inside_edges(&self) -> Vec<(LpId, LpId, Tick)> {
        let rows = self.topology.iter();
        rows.flat_map(|(&source, row)| row.iter().map(move |&destination| (source, destination)))
            .map(|edge| (edge.0, edge.1, self.outbound_bounds[&edge]))
            .collect()
    }

    pub fn inside_horizons(&self) -> Vec<Tick> {
        self.local_horizons.values().copied().collect()
    }

    pub fn inside_next_sequence(&self) -> u64 {
        self.next_sequence
    }

    pub fn inside_initial_open(&self) -> bool {
        self.initial_events_open
    }

    pub fn inside_poisoned(&self) -> bool {
        self.poisoned
    }

    pub fn inside_last_horizon(&self) -> Option<Tick> {
        self.last_requested_horizon
    }

    pub fn inside_processes(&mut self) -> &mut BTreeMap<LpId, P> {
        &mut self.processes
    }
}

/// Setting private fields.
impl<P: ConservativeProcess> ConservativeRuntime<P> {
    /// Bounds in the order of `inside_edges`.
    pub fn set_bounds(&mut self, bounds: &[Tick]) {
        let edges = self.inside_edges();
        for (&(source, destination, _), &bound) in edges.iter().zip(bounds) {
            self.outbound_bounds.insert((source, destination), bound);
        }
    }

    pub fn set_horizons(&mut self, horizons: &[Tick]) {
        for (horizon, &to) in self.local_horizons.values_mut().zip(horizons) {
            *horizon = to;
        }
    }

    pub fn set_next_sequence(&mut self, next: u64) {
        self.next_sequence = next;
    }

    pub fn set_gvt(&mut self, gvt: Tick) {
        self.gvt = gvt;
    }

    pub fn set_initial_open(&mut self, open: bool) {
        self.initial_events_open = open;
    }

    pub fn set_last_horizon(&mut self, horizon: Option<Tick>) {
        self.last_requested_horizon = horizon;
    }

    pub fn set_poisoned(&mut self) {
        self.poisoned = true;
    }

    pub fn inside_report(&mut self) -> &mut RuntimeReport {
        &mut self.report
    }

    pub fn keep(&self) -> Kept {
        (self.queues.clone(), self.next_sequence, self.report.clone())
    }

    pub fn put_back(&mut self, kept: Kept) {
        (self.queues, self.next_sequence, self.report) = kept;
    }

    /// A plan with lookahead 0, which `from_entities` does not make.
    pub fn plan_without_lookahead(mut plan: PartitionPlan) -> PartitionPlan {
        plan.lookahead = SimDuration::ZERO;
        plan
    }
}

/// The private functions, in the order in which the loop of `run_until_with_budget` calls them.
impl<P: ConservativeProcess> ConservativeRuntime<P> {
    /// What `run_until_with_budget` does before its loop: its own code, run while there is no process,
    /// no edge and no event, so that its loop ends at once and changes nothing.
    pub fn call_opening(&mut self, horizon: Tick, budget: usize) -> Result<(), RuntimeError> {
        let topology = std::mem::take(&mut self.topology);
        let processes = std::mem::take(&mut self.processes);
        let queues = std::mem::take(&mut self.queues);
        let bounds = std::mem::take(&mut self.outbound_bounds);
        let horizons = std::mem::take(&mut self.local_horizons);
        let answer = self.run_until_with_budget(horizon, budget);
        self.topology = topology;
        self.processes = processes;
        self.queues = queues;
        self.outbound_bounds = bounds;
        self.local_horizons = horizons;
        answer.map(|_| ())
    }

    pub fn call_ensure_healthy(&self) -> Result<(), RuntimeError> {
        self.ensure_healthy()
    }

    pub fn call_compute_safe_frontiers(&self, horizon: Tick) -> BTreeMap<LpId, Tick> {
        self.compute_safe_frontiers(horizon)
    }

    pub fn call_take_eligible_batches(
        &mut self,
        safe: &BTreeMap<LpId, Tick>,
        limit: usize,
    ) -> BTreeMap<LpId, Vec<RemoteEvent>> {
        self.take_eligible_batches(safe, limit)
    }

    pub fn call_execute_round(
        &mut self,
        batches: BTreeMap<LpId, Vec<RemoteEvent>>,
    ) -> Result<(), RuntimeError> {
        self.execute_round(batches)
    }

    pub fn call_has_eligible_event(&self, safe: &BTreeMap<LpId, Tick>) -> bool {
        self.has_eligible_event(safe)
    }

    pub fn call_advance_bounds(&mut self, safe: &BTreeMap<LpId, Tick>, horizon: Tick) -> bool {
        self.advance_bounds(safe, horizon)
    }

    pub fn call_refresh_gvt(&mut self, safe: &BTreeMap<LpId, Tick>, horizon: Tick) {
        self.refresh_gvt(safe, horizon)
    }

    pub fn call_is_complete(&self, horizon: Tick) -> bool {
        self.is_complete(horizon)
    }
}
