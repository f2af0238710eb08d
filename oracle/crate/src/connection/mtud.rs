// The Rust's text, unchanged, then a view of its private fields.
include!("mtud.quinn.rs");

impl MtuDiscovery {
    pub(crate) fn view(&self, base: Instant) -> String {
        let (phase, peer) = match &self.state {
            None => ("off".to_string(), "-".to_string()),
            Some(s) => (
                match &s.phase {
                    Phase::Initial => "init".to_string(),
                    Phase::Complete(t) => format!("rest({})", (*t - base).as_micros()),
                    Phase::Searching(x) => format!(
                        "search(lo={},up={},last={},fly={},lost={})",
                        x.lower_bound,
                        x.upper_bound,
                        x.last_probed_mtu,
                        x.in_flight_probe.map_or("-".into(), |p| p.to_string()),
                        x.lost_probe_count
                    ),
                },
                s.peer_max_udp_payload_size.to_string(),
            ),
        };
        let d = &self.black_hole_detector;
        let b: Vec<String> = d
            .suspicious_loss_bursts
            .iter()
            .map(|b| b.smallest_packet_size.to_string())
            .collect();
        format!(
            "mtu={} {} peer={} bursts=[{}] cur={} post={} acked={} min={}",
            self.current_mtu,
            phase,
            peer,
            b.join(","),
            d.current_loss_burst
                .map_or("-".into(), |c| format!(
                    "{}:{}",
                    c.latest_non_probe, c.smallest_packet_size
                )),
            d.largest_post_loss_packet,
            d.acked_mtu,
            d.min_mtu
        )
    }
}
