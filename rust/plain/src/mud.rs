//! The MUD rules down to the entries: the header, the policies and the lists.

use crate::entry::{self, Direction};
use crate::json::{has_repeated, sorting_key, Members, Value};
use crate::rules::Rules;
use crate::site::Site;
use crate::url::authority;
use crate::{Refusal, MOST_ENTRIES};

/// What the header says that the entries need.
#[derive(Clone, Copy, Debug)]
pub struct Header<'t> {
    /// The file's own MUD URL.
    pub url: &'t [u8],
    /// The authority of that URL.
    pub maker: &'t [u8],
}

/// An entry, in the direction of the policy that names its list.
type Entry<'t> = (Direction, Members<'t>);

/// Reads all rules of a file, in the order in which they are tried, the defaults last.
pub fn rules<'s>(root: Value, site: Site<'s>) -> Result<Rules<'s>, Refusal> {
    let outermost = root.object().ok_or(Refusal::Header)?;
    let mud = outermost.get("ietf-mud:mud").and_then(Value::object).ok_or(Refusal::Header)?;
    let header = header(&mud).ok_or(Refusal::Header)?;
    let entries = entries(&outermost, &mud).ok_or(Refusal::Lists)?;

    // An unlisted member anywhere comes before every other breach, and the count comes last:
    // so all entries are gone through for the one before any is read for the other.
    if entries.iter().any(|(_, entry)| entry::has_unlisted_member(entry)) {
        return Err(Refusal::Unlisted);
    }
    let mut rules = Vec::with_capacity(entries.len() + 2);
    for (direction, entry) in &entries {
        rules.push(entry::rule(*direction, entry, header, &site).ok_or(Refusal::Entry)?);
    }
    if entries.len() > MOST_ENTRIES {
        return Err(Refusal::TooManyEntries);
    }
    rules.extend(entry::defaults(&site));
    Ok(Rules::new(site, rules))
}

/// The header, if each of its members is as it should be.
fn header<'t>(mud: &Members<'t>) -> Option<Header<'t>> {
    let version_is_1 = mud.get("mud-version")?.integer(1) == Some(1);
    let url = mud.get("mud-url")?.string()?;
    let maker = authority(url)?;
    mud.get("last-update")?.string()?;
    let says_support = mud.get("is-supported")?.is_bool();
    let validity_is_right = match mud.get("cache-validity") {
        None => true,
        Some(hours) => hours.integer(168)? >= 1,
    };
    (version_is_1 && says_support && validity_is_right).then_some(Header { url, maker })
}

/// All entries of the named IPv4 lists: those of the device's policy, then those of the other, each
/// in the order in which it names its lists. `None` where a policy, list, type or name is wrong.
fn entries<'t>(outermost: &Members<'t>, mud: &Members<'t>) -> Option<Vec<Entry<'t>>> {
    let lists = Lists::read(outermost)?;
    let mut entries = Vec::new();
    for (policy, direction) in
        [("from-device-policy", Direction::FromDevice), ("to-device-policy", Direction::ToDevice)]
    {
        for name in list_names(mud, policy)? {
            let found = list_entries(lists.called(name)?)?;
            entries.extend(found.into_iter().map(|entry| (direction, entry)));
        }
    }
    Some(entries)
}

/// The names of the lists that a policy names, no name twice.
fn list_names<'t>(mud: &Members<'t>, policy: &str) -> Option<Vec<&'t [u8]>> {
    let named = match mud.get(policy) {
        None => Vec::new(),
        Some(policy) => named_objects(policy, "access-lists", "access-list")?,
    };
    Some(named.into_iter().map(|(name, _)| name).collect())
}

/// The entries of a named list: none for an IPv6 list, which is read no further than its type.
fn list_entries<'t>(list: &Members<'t>) -> Option<Vec<Members<'t>>> {
    match list.get("type")?.string()? {
        b"ipv4-acl-type" => {}
        b"ipv6-acl-type" => return Some(Vec::new()),
        _ => return None,
    }
    let named = named_in(list, "aces", "ace")?;
    Some(named.into_iter().map(|(_, entry)| entry).collect())
}

/// All lists of the file, by name.
struct Lists<'t> {
    lists: Vec<(&'t [u8], Members<'t>)>,
    /// The sorting keys of the names, sorted, each with the place of its list.
    by_name: Vec<((u64, &'t [u8]), usize)>,
}

impl<'t> Lists<'t> {
    fn read(outermost: &Members<'t>) -> Option<Lists<'t>> {
        let lists = match outermost.get("ietf-access-control-list:acls") {
            None => Vec::new(),
            Some(acls) => elements_with_names(acls.object()?.get("acl"))?,
        };
        let keys = lists.iter().map(|&(name, _)| sorting_key(name));
        let mut by_name: Vec<_> = keys.zip(0..).collect();
        by_name.sort_unstable();
        Some(Lists { lists, by_name })
    }

    fn called(&self, name: &[u8]) -> Option<&Members<'t>> {
        let key = sorting_key(name);
        let found = self.by_name.binary_search_by_key(&key, |&(key, _)| key).ok()?;
        let (_, place) = self.by_name[found];
        Some(&self.lists[place].1)
    }
}

/// The named objects of `holder`, which must be an object, as [`named_in`] finds them.
fn named_objects<'t>(holder: Value<'t>, outer: &str, inner: &str) -> Option<Vec<(&'t [u8], Members<'t>)>> {
    named_in(&holder.object()?, outer, inner)
}

/// In `holder` the object `outer`, in it the array `inner` of objects with names. Either may be
/// absent, which means none.
fn named_in<'t>(holder: &Members<'t>, outer: &str, inner: &str) -> Option<Vec<(&'t [u8], Members<'t>)>> {
    match holder.get(outer) {
        None => Some(Vec::new()),
        Some(outer) => elements_with_names(outer.object()?.get(inner)),
    }
}

/// The elements of an array of objects, each with a string `name`, all names different. No array
/// at all means none.
fn elements_with_names<'t>(array: Option<Value<'t>>) -> Option<Vec<(&'t [u8], Members<'t>)>> {
    let mut elements = Vec::new();
    if let Some(array) = array {
        for element in array.array()? {
            let element = element.object()?;
            elements.push((element.get("name")?.string()?, element));
        }
    }
    if has_repeated(elements.iter().map(|&(name, _)| name)) {
        return None;
    }
    Some(elements)
}
