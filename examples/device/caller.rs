// A caller in Rust: an adapter that is asked for its identity, by hand instead of by a network.
//
// cc -c cip_heap.c; rustc caller.rs -C link-arg=cip_heap.o -C link-arg=libcip_device.a
use std::ptr::null_mut;

/// As in cip_device.h, which says what a caller owes and gets.
#[repr(C)]
struct Device {
    at: *mut u8,
}

#[repr(C)]
struct Config {
    kind: u32,
    clock: u64,
    first_id: u32,
    first_number: u32,
    pending_room: u32,
    hop_room: u32,
    serial: u32,
    vendor: u16,
    device_type: u16,
    product: u16,
    status: u16,
    major: u8,
    minor: u8,
}

#[repr(C)]
struct Port {
    number: u16,
    is_text: u8,
    first: u8,
    last: u8,
    address_length: u8,
    address: [u8; 16],
}

#[repr(C)]
struct Assembly {
    instance: u16,
    size: u16,
}

#[repr(C)]
#[derive(Default)]
struct Output {
    kind: u32,
    reason: u32,
    number: u32,
    instance: u32,
    originator: u32,
    serial: u16,
    vendor: u16,
    port: u16,
    to_length: u16,
    to: [u8; 16],
    length: usize,
}

const ADAPTER: u32 = 1;
const DONE: u32 = 0;
const NOTHING: u32 = 7;

extern "C" {
    fn cip_new(
        device: &mut Device,
        config: &Config,
        name: *const u8,
        name_length: usize,
        product_name: *const u8,
        product_name_length: usize,
        ports: *const Port,
        port_count: usize,
        assemblies: *const Assembly,
        assembly_count: usize,
    ) -> u32;
    fn cip_request(
        device: &mut Device,
        port: u16,
        from: *const u8,
        from_length: usize,
        number: u32,
        bytes: *const u8,
        length: usize,
    ) -> u32;
    fn cip_tick(device: &mut Device, milliseconds: u16) -> u32;
    fn cip_next(device: &mut Device, output: &mut Output, buffer: *mut u8, room: usize) -> u32;
    fn cip_next_deadline(device: &mut Device, milliseconds: &mut u64) -> u32;
    fn cip_free(device: &mut Device);
    fn cip_version() -> u32;
}

fn main() {
    let config = Config {
        kind: ADAPTER,
        clock: 0,
        first_id: 0x0001_0001,
        first_number: 0x0001_0001,
        pending_room: 4,
        hop_room: 4,
        serial: 0x0E0E,
        vendor: 0x0101,
        device_type: 12,
        product: 3,
        status: 0,
        major: 1,
        minor: 3,
    };
    let mut port = Port {
        number: 2,
        is_text: 0,
        first: 0,
        last: 0xFE,
        address_length: 1,
        address: [0; 16],
    };
    port.address[0] = 7;
    let assembly = Assembly {
        instance: 101,
        size: 4,
    };
    let get_all = [0x01, 0x02, 0x20, 0x01, 0x24, 0x01];
    let mut device = Device { at: null_mut() };
    let mut bytes = [0; 512];
    // Each pointer is to memory that lives over its call and that nothing else is given.
    unsafe {
        assert_eq!(cip_version(), 2);
        let status = cip_new(
            &mut device,
            &config,
            b"E".as_ptr(),
            1,
            b"EA".as_ptr(),
            2,
            &port,
            1,
            &assembly,
            1,
        );
        assert_eq!(status, DONE);
        // the time that went by, before the frame that came
        assert_eq!(cip_tick(&mut device, 5), DONE);
        let status = cip_request(
            &mut device,
            2,
            [5].as_ptr(),
            1,
            1,
            get_all.as_ptr(),
            get_all.len(),
        );
        assert_eq!(status, DONE);
        let mut output = Output::default();
        while cip_next(&mut device, &mut output, bytes.as_mut_ptr(), bytes.len()) == DONE {
            print!(
                "output {} to port {} address {}:",
                output.kind, output.port, output.to[0]
            );
            for byte in &bytes[..output.length] {
                print!(" {byte:02X}");
            }
            println!();
        }
        let mut milliseconds = 0;
        let status = cip_next_deadline(&mut device, &mut milliseconds);
        assert_eq!(status, NOTHING);
        cip_free(&mut device);
    }
    assert!(device.at.is_null());
}
