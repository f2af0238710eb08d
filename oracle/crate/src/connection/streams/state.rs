// The Rust's text, unchanged, then a view of its private fields.
include!("state.quinn.rs");

/// What a line says of the connection
pub(crate) struct Sums {
    pub(crate) charged: u64,
    pub(crate) grant: u64,
    pub(crate) debt: u64,
    pub(crate) places: u64,
    pub(crate) ralloc: [u64; 2],
}

impl StreamsState {
    fn recv_of(&self, id: StreamId) -> Option<Option<&Recv>> {
        match self.recv.get(&id)? {
            Some(StreamRecv::Open(r)) => Some(Some(r)),
            _ => Some(None),
        }
    }
    pub(crate) fn view_stream(&self, id: StreamId) -> String {
        match self.recv_of(id) {
            None => "closed".into(),
            Some(None) => format!("end=0 read=0 limit={} open", self.stream_receive_window),
            Some(Some(r)) => r.view(),
        }
    }
    pub(crate) fn unread(&self, id: StreamId) -> Option<u64> {
        self.recv_of(id)?.map_or(Some(0), |r| r.unread())
    }
    /// The limit of a stream that may still be told one
    pub(crate) fn limit(&self, id: StreamId) -> Option<u64> {
        match self.recv_of(id)? {
            None => Some(self.stream_receive_window),
            Some(r) => r.can_send_flow_control().then(|| r.limit()),
        }
    }
    pub(crate) fn sums(&self) -> Sums {
        Sums {
            charged: self.data_recvd,
            grant: self.local_max_data,
            debt: self.receive_window_shrink_debt,
            places: self.recv.len() as u64,
            ralloc: self.allocated_remote_count,
        }
    }
    pub(crate) fn view(&self) -> String {
        let p = |a: &[u64; 2]| format!("{},{}", a[0], a[1]);
        format!(
            "charged={} grant={} debt={} win={} next={} max={} rmax={} ralloc={} rwant={} rnext={}",
            self.data_recvd,
            self.local_max_data,
            self.receive_window_shrink_debt,
            self.receive_window,
            p(&self.next),
            p(&self.max),
            p(&self.max_remote),
            p(&self.allocated_remote_count),
            p(&self.max_concurrent_remote_count),
            p(&self.next_remote),
        )
    }
    /// Why nothing can be received on a stream, where the Rust's own check of a frame says so
    pub(crate) fn barred(&mut self, id: StreamId) -> Option<TransportError> {
        self.validate_receive_id(id).err()
    }
    pub(crate) fn side(&self) -> Side {
        self.side
    }
    /// Whether the application is still to be told of this stream of the peer's
    pub(crate) fn untold(&self, id: StreamId) -> bool {
        self.next_reported_remote[id.dir() as usize] <= id.index()
    }
    pub(crate) fn credit(&mut self, n: u64) {
        self.add_read_credits(n);
    }
}
