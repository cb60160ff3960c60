//! Task files and probe files, read once from front to back; what is read borrows from the file. Readers of wide values are inlined: it spares copies.

use crate::parts::{Action, Head, Operator, PartialState, Probe, Task, EDGE};
use crate::refusal::{Answer, Reason};

/// A task file up to the action that is read next.
pub struct TaskReader<'a> {
    pub head: Head<'a>,
    pub action_count: usize,
    cursor: Cursor<'a>,
    actions_read: usize,
    nodes_read: usize,
    steps_before: usize,
}

/// A probe file up to the step that is read next.
pub struct ProbeReader<'a> {
    pub head: Head<'a>,
    pub step_count: usize,
    cursor: Cursor<'a>,
    steps_read: usize,
}

/// The head of the blank task, whose file has zero bytes: one variable of 2 values at 0, and an empty goal. It has no actions.
const BLANK: Head = Head { sizes: &[2], initial: &[0], goal: PartialState { map: 0, values: &[] } };

/// A place in a file.
struct Cursor<'a> {
    file: &'a [u8],
    at: usize,
}

/// Whether a task file is accepted.
pub fn check_task(file: &[u8]) -> Answer<()> {
    let mut reader = TaskReader::open(file)?;
    while reader.next_action()?.is_some() {}
    Ok(())
}

/// Whether a probe file is accepted.
pub fn check_probe(file: &[u8]) -> Answer<()> {
    let mut reader = ProbeReader::open(file)?;
    while reader.next_step()?.is_some() {}
    Ok(())
}

impl<'a> Task<'a> {
    /// The task of a file.
    pub fn read(file: &'a [u8]) -> Answer<Task<'a>> {
        let mut reader = TaskReader::open(file)?;
        let mut actions = Vec::with_capacity(reader.action_count);
        while let Some(action) = reader.next_action()? {
            actions.push(action);
        }
        let mut nodes = Vec::with_capacity(reader.nodes_read);
        for action in &actions {
            nodes.extend(action.nodes(reader.head.sizes));
        }
        Ok(Task { head: reader.head, actions, nodes })
    }
}

impl<'a> Probe<'a> {
    /// The contents of a probe file.
    pub fn read(file: &'a [u8]) -> Answer<Probe<'a>> {
        let mut reader = ProbeReader::open(file)?;
        let mut steps = Vec::with_capacity(reader.step_count);
        while let Some(step) = reader.next_step()? {
            steps.push(step);
        }
        Ok(Probe { head: reader.head, steps })
    }
}

impl<'a> TaskReader<'a> {
    /// Reads a task file up to its first action; one of zero bytes is the blank task's.
    pub fn open(file: &'a [u8]) -> Answer<TaskReader<'a>> {
        let mut cursor = Cursor { file, at: 0 };
        let (head, action_count) = match file {
            [] => (BLANK, 0),
            _ => (cursor.head(Task::VARIABLES, Task::VALUES)?, cursor.count(1, Task::ACTIONS)?),
        };
        Ok(TaskReader { head, action_count, cursor, actions_read: 0, nodes_read: 0, steps_before: 0 })
    }

    /// Reads the next action; after the last one sees that the file ends.
    #[inline(always)]
    pub fn next_action(&mut self) -> Answer<Option<Action<'a>>> {
        if self.actions_read == self.action_count {
            self.cursor.end()?;
            return Ok(None);
        }
        let operator = self.cursor.operator(self.head.sizes)?;
        let room = Task::NODES - self.nodes_read;
        let [node_count] = self.cursor.field()?;
        let node_count = usize::from(node_count);
        if node_count > room {
            return Reason::OutOfRange.at(self.cursor.at - 1);
        }
        let action = Action {
            operator,
            node_count,
            first_node: self.nodes_read,
            first_step: self.steps_before,
            node_bytes: self.cursor.nodes(node_count, self.head.sizes)?,
        };
        self.actions_read += 1;
        self.nodes_read += node_count;
        self.steps_before = action.end_step() + 1;
        Ok(Some(action))
    }
}

impl<'a> ProbeReader<'a> {
    /// Reads a probe file up to its first step.
    pub fn open(file: &'a [u8]) -> Answer<ProbeReader<'a>> {
        let mut cursor = Cursor { file, at: 0 };
        let head = cursor.head(Probe::VARIABLES, Probe::VALUES)?;
        let place = cursor.at;
        let step_count = cursor.word()?;
        if step_count > Probe::STEPS {
            return Reason::OutOfRange.at(place);
        }
        Ok(ProbeReader { head, step_count: usize::from(step_count), cursor, steps_read: 0 })
    }

    /// Reads the next step; after the last one sees that the file ends.
    #[inline(always)]
    pub fn next_step(&mut self) -> Answer<Option<Operator<'a>>> {
        if self.steps_read == self.step_count {
            self.cursor.end()?;
            return Ok(None);
        }
        self.steps_read += 1;
        self.cursor.operator(self.head.sizes).map(Some)
    }
}

impl<'a> Cursor<'a> {
    /// The next field, which has `WIDTH` bytes.
    #[inline(always)]
    fn field<const WIDTH: usize>(&mut self) -> Answer<[u8; WIDTH]> {
        let Some(&field) = self.file[self.at..].first_chunk() else {
            return Reason::FileEnds.at(self.at);
        };
        self.at += WIDTH;
        Ok(field)
    }

    /// The next byte, which has to be good.
    fn byte(&mut self, reason: Reason, good: impl Fn(u8) -> bool) -> Answer<u8> {
        let [byte] = self.field()?;
        if !good(byte) {
            return reason.at(self.at - 1);
        }
        Ok(byte)
    }

    /// The next bytes, each a field of its own and each good.
    #[inline(always)]
    fn bytes(&mut self, count: usize, reason: Reason, mut good: impl FnMut(usize, u8) -> bool) -> Answer<&'a [u8]> {
        let rest = &self.file[self.at..];
        let bytes = &rest[..count.min(rest.len())];
        for (index, &byte) in bytes.iter().enumerate() {
            if !good(index, byte) {
                return reason.at(self.at + index);
            }
        }
        self.at += bytes.len();
        if bytes.len() < count {
            return Reason::FileEnds.at(self.at);
        }
        Ok(bytes)
    }

    /// The next two-byte number.
    fn word(&mut self) -> Answer<u16> {
        self.field().map(u16::from_le_bytes)
    }

    /// A count of one byte within a range.
    fn count(&mut self, least: u8, most: u8) -> Answer<usize> {
        self.byte(Reason::OutOfRange, |count| least <= count && count <= most).map(usize::from)
    }

    /// A partial state over variables of the given sizes.
    #[inline(always)]
    fn partial_state(&mut self, sizes: &[u8]) -> Answer<PartialState<'a>> {
        let place = self.at;
        let map = self.field().map(u64::from_le_bytes)?;
        if map >> sizes.len() != 0 {
            return Reason::StrayMapBit.at(place);
        }
        let mut left = map;
        let values = self.bytes(map.count_ones() as usize, Reason::BadValue, |_, value| {
            let variable = left.trailing_zeros() as usize;
            left &= left.wrapping_sub(1);
            value < sizes[variable]
        })?;
        Ok(PartialState { map, values })
    }

    /// The front of a file, within the limits of its kind.
    fn head(&mut self, most_variables: u8, most_values: u8) -> Answer<Head<'a>> {
        let count = self.count(1, most_variables)?;
        let in_range = |_, size| (2..=most_values).contains(&size);
        let sizes = self.bytes(count, Reason::OutOfRange, in_range)?;
        let in_domain = |variable: usize, value| value < sizes[variable];
        let initial = self.bytes(count, Reason::BadValue, in_domain)?;
        let goal = self.partial_state(sizes)?;
        Ok(Head { sizes, initial, goal })
    }

    /// A precondition, an effect and a weight.
    #[inline(always)]
    fn operator(&mut self, sizes: &[u8]) -> Answer<Operator<'a>> {
        Ok(Operator {
            precondition: self.partial_state(sizes)?,
            effect: self.partial_state(sizes)?,
            weight: self.word()?,
        })
    }

    /// The nodes of an action; the variables of targets are looked at once all the nodes are read.
    fn nodes(&mut self, count: usize, sizes: &[u8]) -> Answer<&'a [u8]> {
        let start = self.at;
        let mut tested = [u8::MAX; Task::NODES + 2];
        for (number, tested) in (1..=count).zip(&mut tested[1..]) {
            let exists = |variable| usize::from(variable) < sizes.len();
            let variable = self.byte(Reason::BadNode, exists)?;
            *tested = variable;
            self.edges(number, count + 1, sizes[usize::from(variable)])?;
        }
        let mut at = start;
        for &variable in &tested[1..=count] {
            at = self.check_targets(at + 1, variable, sizes, &tested)?;
        }
        Ok(&self.file[start..self.at])
    }

    /// The edges of a node: targets above the node's own number, up to the terminal's.
    fn edges(&mut self, node: usize, terminal: usize, size: u8) -> Answer<()> {
        let later = |target| node < usize::from(target) && usize::from(target) <= terminal;
        let end = self.at + EDGE * usize::from(size);
        let whole = &self.file[self.at..end.min(self.file.len())];
        for edge in whole.chunks_exact(EDGE) {
            if !later(edge[0]) {
                return Reason::BadNode.at(self.at);
            }
            self.at += EDGE;
        }
        if self.at < end {
            // The file ends before or inside this edge.
            self.byte(Reason::BadNode, later)?;
            self.word()?;
        }
        Ok(())
    }

    /// Sees that each target of a node that has been read tests a higher variable than the node; answers where its edges end.
    fn check_targets(&self, at: usize, variable: u8, sizes: &[u8], tested: &[u8]) -> Answer<usize> {
        let end = at + EDGE * usize::from(sizes[usize::from(variable)]);
        for (index, edge) in self.file[at..end].chunks_exact(EDGE).enumerate() {
            if tested[usize::from(edge[0])] <= variable {
                return Reason::BadNode.at(at + EDGE * index);
            }
        }
        Ok(end)
    }

    /// Sees that nothing follows.
    fn end(&self) -> Answer<()> {
        if self.at < self.file.len() {
            return Reason::BytesAfter.at(self.at);
        }
        Ok(())
    }
}
