//! The configuration: its walk, its rules, and what the nodes ask of it.
use crate::json::{self, Json};
use std::collections::{BTreeMap, HashMap, HashSet};
use std::ops::Range;

pub type Socket = (u32, u16);

#[derive(Clone, Copy, PartialEq, Eq, Hash, Debug)]
pub enum NodeId {
    Replica(u8),
    Mux(u16),
    Agent(u16),
}

/// Whose a socket is.
#[derive(Clone, Copy, PartialEq, Eq, Debug)]
pub enum Who {
    Node(NodeId),
    Machine(usize),
    Outside,
}

pub struct Machine {
    pub address: u32,
    pub attach: Socket,
    pub agent: u16,
    /// The place of the VIP from which its connections leave.
    pub vip: Option<usize>,
}

/// An agent: the places of its machines.
pub struct Agent {
    pub machines: Range<usize>,
}

#[derive(Clone, Copy)]
pub struct Member {
    pub machine: usize,
    pub port: u16,
}

pub struct Endpoint {
    pub port: u16,
    pub members: Vec<Member>,
}

pub struct Vip {
    pub address: u32,
    pub low: u64,
    pub high: u64,
    pub endpoints: Vec<Endpoint>,
}

pub struct Timers {
    pub lead_silent: u64,
    pub mux_silent: u64,
    pub ask_retry: u64,
    pub flow_idle: u64,
    pub range_idle: u64,
}

pub struct Config {
    pub router: Socket,
    pub replicas: Vec<Socket>,
    pub muxes: Vec<Socket>,
    pub agents: Vec<Agent>,
    pub machines: Vec<Machine>,
    pub vips: Vec<Vip>,
    pub limit: u64,
    pub timers: Timers,
    /// By VIP a bit for each range of eight ports that may be leased.
    pub leasable: Vec<Vec<u64>>,
    sockets: HashMap<Socket, Who>,
    machine_at: HashMap<u32, usize>,
    vip_at: HashMap<u32, usize>,
    endpoint_at: HashMap<(usize, u8, u16), usize>,
    served_at: HashMap<(usize, usize, u8, u16), u16>,
}

pub enum Fault {
    Json,
    Path(String),
}

fn at<T>(path: String) -> Result<T, Fault> {
    Err(Fault::Path(path))
}

pub fn decimal(text: &str) -> Option<u64> {
    let is_number = !text.is_empty() && text.bytes().all(|byte| byte.is_ascii_digit());
    if is_number && (text == "0" || !text.starts_with('0')) {
        text.parse().ok()
    } else {
        None
    }
}

pub fn address(text: &str) -> Option<u32> {
    let mut bytes = [0; 4];
    let mut parts = text.split('.');
    for byte in &mut bytes {
        *byte = u8::try_from(decimal(parts.next()?)?).ok()?;
    }
    if parts.next().is_some() { None } else { Some(u32::from_be_bytes(bytes)) }
}

pub fn socket(text: &str) -> Option<Socket> {
    let (ip, port) = text.split_once(':')?;
    let port = u16::try_from(decimal(port)?).ok()?;
    if port == 0 { None } else { Some((address(ip)?, port)) }
}

/// An object of the text and where it stands.
struct Object<'a> {
    path: String,
    members: &'a BTreeMap<String, Json>,
}

impl<'a> Object<'a> {
    fn of(json: &'a Json, path: String) -> Result<Object<'a>, Fault> {
        match json {
            Json::Object(members) => Ok(Object { path, members }),
            _ => at(path),
        }
    }

    fn path(&self, key: &str) -> String {
        if self.path.is_empty() {
            key.to_string()
        } else {
            format!("{}.{key}", self.path)
        }
    }

    fn get<T>(&self, key: &str, read: impl Fn(&'a Json) -> Option<T>) -> Result<T, Fault> {
        match self.members.get(key).and_then(read) {
            Some(value) => Ok(value),
            None => at(self.path(key)),
        }
    }

    fn number(&self, key: &str, allowed: std::ops::RangeInclusive<u64>) -> Result<u64, Fault> {
        self.get(key, |json| match json {
            Json::Number(Some(number)) if allowed.contains(number) => Some(*number),
            _ => None,
        })
    }

    fn spelled<T>(&self, key: &str, read: impl Fn(&str) -> Option<T>) -> Result<T, Fault> {
        self.get(key, |json| match json {
            Json::Text(text) => read(text),
            _ => None,
        })
    }

    /// Each member by `read`, which gets it and its path.
    fn list<T>(
        &self,
        key: &str,
        allowed: std::ops::RangeInclusive<usize>,
        mut read: impl FnMut(&'a Json, String) -> Result<T, Fault>,
    ) -> Result<Vec<T>, Fault> {
        let members = self.get(key, |json| match json {
            Json::List(members) if allowed.contains(&members.len()) => Some(members),
            _ => None,
        })?;
        members.iter().enumerate().map(|(i, json)| read(json, format!("{}[{i}]", self.path(key)))).collect()
    }

    /// The object's keys are these and no others.
    fn only(&self, keys: &[&str]) -> Result<(), Fault> {
        match self.members.keys().find(|key| !keys.contains(&key.as_str())) {
            Some(key) => at(self.path(key)),
            None => Ok(()),
        }
    }
}

fn text_of<T>(json: &Json, path: String, read: impl Fn(&str) -> Option<T>) -> Result<T, Fault> {
    match json {
        Json::Text(text) => read(text).map_or_else(|| at(path), Ok),
        _ => at(path),
    }
}

// What the walk reads, in the order of the text.

struct Attach {
    address: u32,
    attach: Socket,
}

struct Served {
    address: u32,
    port: u16,
}

struct Service {
    proto: u8,
    port: u16,
    machines: Vec<Served>,
}

struct VipText {
    address: u32,
    low: u64,
    high: u64,
    snat: Vec<u32>,
    endpoints: Vec<Service>,
}

struct Text {
    router: Socket,
    replicas: Vec<Socket>,
    muxes: Vec<Socket>,
    agents: Vec<(Socket, Vec<Attach>)>,
    vips: Vec<VipText>,
    limit: u64,
    timers: Timers,
}

fn read_agent(json: &Json, path: String) -> Result<(Socket, Vec<Attach>), Fault> {
    let agent = Object::of(json, path)?;
    let own = agent.spelled("socket", socket)?;
    let machines = agent.list("machines", 1..=64, |json, path| {
        let machine = Object::of(json, path)?;
        let read = Attach { address: machine.spelled("address", address)?, attach: machine.spelled("attach", socket)? };
        machine.only(&["address", "attach"])?;
        Ok(read)
    })?;
    agent.only(&["socket", "machines"])?;
    Ok((own, machines))
}

fn read_port(object: &Object) -> Result<u16, Fault> {
    object.number("port", 1..=65535).map(|port| port as u16)
}

fn read_endpoint(json: &Json, path: String) -> Result<Service, Fault> {
    let endpoint = Object::of(json, path)?;
    let proto = endpoint.spelled("proto", |text| match text {
        "tcp" => Some(6),
        "udp" => Some(17),
        _ => None,
    })?;
    let port = read_port(&endpoint)?;
    let machines = endpoint.list("machines", 1..=64, |json, path| {
        let member = Object::of(json, path)?;
        let read = Served { address: member.spelled("address", address)?, port: read_port(&member)? };
        member.only(&["address", "port"])?;
        Ok(read)
    })?;
    endpoint.only(&["proto", "port", "machines"])?;
    Ok(Service { proto, port, machines })
}

fn read_vip(json: &Json, path: String) -> Result<VipText, Fault> {
    let vip = Object::of(json, path)?;
    let read = VipText {
        address: vip.spelled("address", address)?,
        low: vip.number("low", 0..=u64::MAX)?,
        high: vip.number("high", 0..=u64::MAX)?,
        snat: vip.list("snat", 0..=4096, |json, path| text_of(json, path, address))?,
        endpoints: vip.list("endpoints", 0..=1024, read_endpoint)?,
    };
    vip.only(&["address", "low", "high", "snat", "endpoints"])?;
    Ok(read)
}

fn read_timers(json: &Json) -> Result<Timers, Fault> {
    let timers = Object::of(json, "timers".to_string())?;
    let timer = |key| timers.number(key, 1..=86_400_000);
    let read = Timers {
        lead_silent: timer("lead_silent")?,
        mux_silent: timer("mux_silent")?,
        ask_retry: timer("ask_retry")?,
        flow_idle: timer("flow_idle")?,
        range_idle: timer("range_idle")?,
    };
    timers.only(&["lead_silent", "mux_silent", "ask_retry", "flow_idle", "range_idle"])?;
    Ok(read)
}

fn read_text(json: &Json) -> Result<Text, Fault> {
    let Json::Object(members) = json else { return at("version".to_string()) };
    let whole = Object { path: String::new(), members };
    whole.number("version", 1..=1)?;
    let read = Text {
        router: whole.spelled("router", socket)?,
        replicas: whole.list("replicas", 5..=5, |json, path| text_of(json, path, socket))?,
        muxes: whole.list("muxes", 1..=16, |json, path| text_of(json, path, socket))?,
        agents: whole.list("agents", 1..=256, read_agent)?,
        vips: whole.list("vips", 1..=64, read_vip)?,
        limit: whole.number("limit", 1..=1024)?,
        timers: read_timers(whole.get("timers", Some)?)?,
    };
    whole.only(&["version", "router", "replicas", "muxes", "agents", "vips", "limit", "timers"])?;
    Ok(read)
}

/// No two sockets are equal.
fn sockets_of(text: &Text) -> Result<HashMap<Socket, Who>, Fault> {
    let mut found = HashMap::new();
    let mut add = |socket, who, path: String| match found.insert(socket, who) {
        Some(_) => at(path),
        None => Ok(()),
    };
    add(text.router, Who::Outside, "router".to_string())?;
    for (i, &own) in text.replicas.iter().enumerate() {
        add(own, Who::Node(NodeId::Replica(i as u8)), format!("replicas[{i}]"))?;
    }
    for (i, &own) in text.muxes.iter().enumerate() {
        add(own, Who::Node(NodeId::Mux(i as u16)), format!("muxes[{i}]"))?;
    }
    let mut machine = 0;
    for (i, (own, machines)) in text.agents.iter().enumerate() {
        add(*own, Who::Node(NodeId::Agent(i as u16)), format!("agents[{i}].socket"))?;
        for (j, each) in machines.iter().enumerate() {
            add(each.attach, Who::Machine(machine), format!("agents[{i}].machines[{j}].attach"))?;
            machine += 1;
        }
    }
    Ok(found)
}

/// No two machine addresses are equal.
fn machines_of(text: &Text) -> Result<(Vec<Machine>, HashMap<u32, usize>), Fault> {
    let mut machines = Vec::new();
    let mut places = HashMap::new();
    for (i, (_, own)) in text.agents.iter().enumerate() {
        for (j, each) in own.iter().enumerate() {
            if places.insert(each.address, machines.len()).is_some() {
                return at(format!("agents[{i}].machines[{j}].address"));
            }
            machines.push(Machine { address: each.address, attach: each.attach, agent: i as u16, vip: None });
        }
    }
    Ok((machines, places))
}

/// No VIP's address is an earlier VIP's or a machine's.
fn vips_of(text: &Text, machine_at: &HashMap<u32, usize>) -> Result<HashMap<u32, usize>, Fault> {
    let mut places = HashMap::new();
    for (i, vip) in text.vips.iter().enumerate() {
        if machine_at.contains_key(&vip.address) || places.insert(vip.address, i).is_some() {
            return at(format!("vips[{i}].address"));
        }
    }
    Ok(places)
}

fn check_ports(text: &Text) -> Result<(), Fault> {
    for (i, vip) in text.vips.iter().enumerate() {
        if vip.low % 8 != 0 || !(1024..=65528).contains(&vip.low) {
            return at(format!("vips[{i}].low"));
        }
        if vip.high > 65535 || vip.high <= vip.low || (vip.high + 1) % 8 != 0 {
            return at(format!("vips[{i}].high"));
        }
    }
    Ok(())
}

/// Each `snat` address is a machine's, and stands once over all the VIPs.
fn set_vips(text: &Text, machines: &mut [Machine], machine_at: &HashMap<u32, usize>) -> Result<(), Fault> {
    for (i, vip) in text.vips.iter().enumerate() {
        for (j, address) in vip.snat.iter().enumerate() {
            match machine_at.get(address).map(|&place| &mut machines[place].vip) {
                Some(own @ None) => *own = Some(i),
                _ => return at(format!("vips[{i}].snat[{j}]")),
            }
        }
    }
    Ok(())
}

fn check_endpoints(text: &Text, machine_at: &HashMap<u32, usize>) -> Result<(), Fault> {
    let mut ports = HashSet::new();
    for (i, vip) in text.vips.iter().enumerate() {
        let mut services = HashSet::new();
        for (j, endpoint) in vip.endpoints.iter().enumerate() {
            let path = format!("vips[{i}].endpoints[{j}]");
            if !services.insert((endpoint.proto, endpoint.port)) {
                return at(path);
            }
            let mut here = HashSet::new();
            for (k, member) in endpoint.machines.iter().enumerate() {
                let path = format!("{path}.machines[{k}]");
                if !ports.insert((endpoint.proto, member.address, member.port)) {
                    return at(path);
                }
                if !machine_at.contains_key(&member.address) || !here.insert(member.address) {
                    return at(format!("{path}.address"));
                }
            }
        }
    }
    Ok(())
}

fn leasable_of(vip: &Vip) -> Vec<u64> {
    let mut bits = vec![0; 128];
    for range in vip.low / 8..(vip.high + 1) / 8 {
        bits[range as usize / 64] |= 1u64 << (range % 64);
    }
    for endpoint in &vip.endpoints {
        let range = usize::from(endpoint.port / 8);
        bits[range / 64] &= !(1 << (range % 64));
    }
    bits
}

impl Config {
    pub fn read(bytes: &[u8]) -> Result<Config, Fault> {
        let text = read_text(&json::parse(bytes).map_err(|_| Fault::Json)?)?;
        let sockets = sockets_of(&text)?;
        let (mut machines, machine_at) = machines_of(&text)?;
        let vip_at = vips_of(&text, &machine_at)?;
        check_ports(&text)?;
        set_vips(&text, &mut machines, &machine_at)?;
        check_endpoints(&text, &machine_at)?;
        Ok(Config::of(text, sockets, machines, machine_at, vip_at))
    }

    fn of(
        text: Text,
        sockets: HashMap<Socket, Who>,
        machines: Vec<Machine>,
        machine_at: HashMap<u32, usize>,
        vip_at: HashMap<u32, usize>,
    ) -> Config {
        let mut agents = Vec::new();
        let mut first = 0;
        for (_, own) in &text.agents {
            agents.push(Agent { machines: first..first + own.len() });
            first += own.len();
        }
        let mut endpoint_at = HashMap::new();
        let mut served_at = HashMap::new();
        let mut vips = Vec::new();
        for (i, vip) in text.vips.into_iter().enumerate() {
            let mut endpoints = Vec::new();
            for (j, service) in vip.endpoints.into_iter().enumerate() {
                endpoint_at.insert((i, service.proto, service.port), j);
                let member = |each: Served| Member { machine: machine_at[&each.address], port: each.port };
                let members: Vec<Member> = service.machines.into_iter().map(member).collect();
                for each in &members {
                    served_at.insert((each.machine, i, service.proto, service.port), each.port);
                }
                endpoints.push(Endpoint { port: service.port, members });
            }
            vips.push(Vip { address: vip.address, low: vip.low, high: vip.high, endpoints });
        }
        let leasable = vips.iter().map(leasable_of).collect();
        Config {
            router: text.router,
            replicas: text.replicas,
            muxes: text.muxes,
            agents,
            machines,
            vips,
            limit: text.limit,
            timers: text.timers,
            leasable,
            sockets,
            machine_at,
            vip_at,
            endpoint_at,
            served_at,
        }
    }

    pub fn who(&self, socket: Socket) -> Who {
        self.sockets.get(&socket).copied().unwrap_or(Who::Outside)
    }

    pub fn machine(&self, address: u32) -> Option<usize> {
        self.machine_at.get(&address).copied()
    }

    pub fn vip(&self, address: u32) -> Option<usize> {
        self.vip_at.get(&address).copied()
    }

    pub fn is_leasable(&self, vip: usize, start: u16) -> bool {
        let range = usize::from(start / 8);
        self.leasable[vip][range / 64] >> (range % 64) & 1 == 1
    }

    /// The VIP and the start of the range with this port, where it may be leased.
    pub fn range(&self, address: u32, port: u16) -> Option<(usize, u16)> {
        let vip = self.vip(address)?;
        let start = port - port % 8;
        self.is_leasable(vip, start).then_some((vip, start))
    }

    pub fn endpoint(&self, vip: usize, proto: u8, port: u16) -> Option<&Endpoint> {
        self.endpoint_at.get(&(vip, proto, port)).map(|&place| &self.vips[vip].endpoints[place])
    }

    /// The machine's own port at the endpoint with these numbers.
    pub fn served(&self, machine: usize, address: u32, proto: u8, port: u16) -> Option<u16> {
        self.served_at.get(&(machine, self.vip(address)?, proto, port)).copied()
    }
}
