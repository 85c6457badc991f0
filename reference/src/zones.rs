//! Document 01's "Zones": chunks out and in, and zones set up and given back.

use crate::pages::Taken;
use crate::sizes::ZONE_PAGES;
use crate::state::{Group, Page, State, Zone};

/// The most zones that the empty list keeps.
const EMPTY_LIMIT: usize = 2;

impl State {
    /// Grants a chunk and answers its zone and number; `None` if pages are
    /// needed and neither search finds them, and then nothing has changed.
    pub(crate) fn take_chunk(&mut self, class: u32, group: Group) -> Taken<(Page, u32)> {
        let zone = match self.list(class).front() {
            Some(&first) => Taken::at_hand(first),
            None => self.set_up_zone(class),
        };
        zone.map(|start| (start, self.grant_from(start, group)))
    }

    /// Takes a live chunk back.
    pub(crate) fn give_chunk(&mut self, start: Page, chunk: u32) {
        let zone = self.zone_mut(start);
        let class = zone.class;
        let was_full = zone.is_full();
        zone.owners[chunk as usize] = None;
        zone.chain.push_front(chunk);
        let is_idle = zone.is_idle();
        if was_full {
            self.list_mut(class).push_front(start);
        }
        if is_idle && self.list(class).len() > 1 {
            self.retire(class, start);
        }
    }

    /// Gives every idle zone back to the runs, whichever list it is on, and
    /// answers how many there were. The other zones keep their order.
    pub(crate) fn give_idle_zones(&mut self) -> u32 {
        let idle: Vec<Page> = self
            .zones
            .iter()
            .filter(|(_, zone)| zone.is_idle())
            .map(|(&start, _)| start)
            .collect();
        for list in self.lists.iter_mut().chain(Some(&mut self.empty)) {
            list.retain(|start| !idle.contains(start));
        }
        for &start in &idle {
            self.give_zone(start);
        }
        idle.len() as u32
    }

    /// A zone for a class whose list is empty: the first of the empty list,
    /// or where that is empty too, new pages. Its former class, count and
    /// chain are forgotten.
    fn set_up_zone(&mut self, class: u32) -> Taken<Page> {
        let pages = match self.empty.pop_front() {
            Some(first) => Taken::at_hand(first),
            None => self.take_pages(ZONE_PAGES),
        };
        pages.map(|start| {
            self.zones.insert(start, Zone::set_up(class));
            self.list_mut(class).push_front(start);
            start
        })
    }

    /// Grants a chunk of a zone on its class's list, and answers its number.
    fn grant_from(&mut self, start: Page, group: Group) -> u32 {
        let zone = self.zone_mut(start);
        let class = zone.class;
        let chunk = zone.grant(group);
        if zone.is_full() {
            self.unlist(class, start);
        }
        chunk
    }

    /// Moves an idle zone from its class's list to the empty list, or past it
    /// to the runs if the empty list has its two.
    fn retire(&mut self, class: u32, start: Page) {
        self.unlist(class, start);
        self.empty.push_front(start);
        if self.empty.len() > EMPTY_LIMIT {
            self.empty.pop_front();
            self.give_zone(start);
        }
    }

    /// Ends a zone that is on no list.
    fn give_zone(&mut self, start: Page) {
        self.zones.remove(&start);
        self.give_pages(start, ZONE_PAGES);
    }

    fn unlist(&mut self, class: u32, start: Page) {
        self.list_mut(class).retain(|&listed| listed != start);
    }
}

impl Zone {
    /// Makes a chunk live: untouched ones first, then the one returned last.
    fn grant(&mut self, group: Group) -> u32 {
        let chunk = if self.handed_out < self.chunk_count() {
            self.handed_out += 1;
            self.handed_out - 1
        } else {
            self.chain
                .pop_front()
                .expect("a listed zone has a chunk that is not live")
        };
        self.owners[chunk as usize] = Some(group);
        chunk
    }
}
