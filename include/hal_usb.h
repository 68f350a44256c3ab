/* USB devices, for the checker. */
#ifndef HAL_USB_H
#define HAL_USB_H

#include "osal.h"

#define USB_RTYPE_DIR_MASK 128U
#define USB_RTYPE_DIR_HOST2DEV 0U
#define USB_RTYPE_DIR_DEV2HOST 128U
#define USB_RTYPE_TYPE_MASK 96U
#define USB_RTYPE_TYPE_STD 0U
#define USB_RTYPE_TYPE_CLASS 32U
#define USB_RTYPE_TYPE_VENDOR 64U
#define USB_RTYPE_RECIPIENT_MASK 31U
#define USB_RTYPE_RECIPIENT_DEVICE 0U
#define USB_RTYPE_RECIPIENT_INTERFACE 1U
#define USB_RTYPE_RECIPIENT_ENDPOINT 2U
#define USB_DESCRIPTOR_DEVICE 1U
#define USB_DESCRIPTOR_CONFIGURATION 2U
#define USB_DESCRIPTOR_STRING 3U
#define USB_DESCRIPTOR_INTERFACE 4U
#define USB_DESCRIPTOR_ENDPOINT 5U
#define USB_EP_MODE_TYPE_CTRL 0U
#define USB_EP_MODE_TYPE_ISOC 1U
#define USB_EP_MODE_TYPE_BULK 2U
#define USB_EP_MODE_TYPE_INTR 3U

typedef enum {
  USB_UNINIT = 0,
  USB_STOP = 1,
  USB_READY = 2,
  USB_SELECTED = 3,
  USB_ACTIVE = 4,
  USB_SUSPENDED = 5
} usbstate_t;
typedef enum {
  USB_EVENT_RESET = 0,
  USB_EVENT_ADDRESS = 1,
  USB_EVENT_CONFIGURED = 2,
  USB_EVENT_UNCONFIGURED = 3,
  USB_EVENT_SUSPEND = 4,
  USB_EVENT_WAKEUP = 5,
  USB_EVENT_STALLED = 6
} usbevent_t;
typedef uint8_t usbep_t;
typedef struct USBDriver USBDriver;
typedef struct {
  size_t ud_size;
  const uint8_t *ud_string;
} USBDescriptor;
typedef void (*usbcallback_t)(USBDriver *);
typedef void (*usbepcallback_t)(USBDriver *, usbep_t);
typedef void (*usbeventcb_t)(USBDriver *, usbevent_t);
typedef bool (*usbreqhandler_t)(USBDriver *);
typedef const USBDescriptor *(*usbgetdescriptor_t)(USBDriver *, uint8_t, uint8_t, uint16_t);
typedef struct {
  uint32_t o[8];
} USBInEndpointState;
typedef struct {
  uint32_t o[8];
} USBOutEndpointState;
/* Its handler calls the members with _cb. */
typedef struct {
  uint32_t ep_mode;
  usbepcallback_t setup_cb;
  usbepcallback_t in_cb;
  usbepcallback_t out_cb;
  uint16_t in_maxsize;
  uint16_t out_maxsize;
  USBInEndpointState *in_state;
  USBOutEndpointState *out_state;
  uint16_t ep_buffers;
  uint8_t *setup_buf;
} USBEndpointConfig;
/* Its handler calls the members with _cb. */
typedef struct {
  usbeventcb_t event_cb;
  usbgetdescriptor_t get_descriptor_cb;
  usbreqhandler_t requests_hook_cb;
  usbcallback_t sof_cb;
} USBConfig;
/* Its handler calls `ep0endcb`. */
struct USBDriver {
  usbstate_t state;
  const USBConfig *config;
  void *param;
  void *in_params[8];
  void *out_params[8];
  uint8_t *ep0next;
  size_t ep0n;
  usbcallback_t ep0endcb;
  uint8_t setup[8];
  uint16_t status;
  uint8_t address;
  uint8_t configuration;
};
extern USBDriver USBD1, USBD2;

#define USB_DESC_INDEX(i) ((uint8_t)(i))
#define USB_DESC_BYTE(b) ((uint8_t)(b))
#define USB_DESC_WORD(w) (uint8_t)((w) & 255U), (uint8_t)(((w) >> 8) & 255U)
#define USB_DESC_BCD(bcd) (uint8_t)((bcd) & 255U), (uint8_t)(((bcd) >> 8) & 255U)
#define USB_DESC_DEVICE(usb, class, subclass, protocol, size, vid, pid, device, maker, product, serial, count) \
  USB_DESC_BYTE(18U), USB_DESC_BYTE(USB_DESCRIPTOR_DEVICE), USB_DESC_BCD(usb), USB_DESC_BYTE(class), \
    USB_DESC_BYTE(subclass), USB_DESC_BYTE(protocol), USB_DESC_BYTE(size), USB_DESC_WORD(vid), USB_DESC_WORD(pid), \
    USB_DESC_BCD(device), USB_DESC_INDEX(maker), USB_DESC_INDEX(product), USB_DESC_INDEX(serial), \
    USB_DESC_BYTE(count)
#define USB_DESC_CONFIGURATION(total, interfaces, value, text, attributes, power) \
  USB_DESC_BYTE(9U), USB_DESC_BYTE(USB_DESCRIPTOR_CONFIGURATION), USB_DESC_WORD(total), USB_DESC_BYTE(interfaces), \
    USB_DESC_BYTE(value), USB_DESC_INDEX(text), USB_DESC_BYTE(attributes), USB_DESC_BYTE(power)
#define USB_DESC_INTERFACE(number, alternate, endpoints, class, subclass, protocol, text) \
  USB_DESC_BYTE(9U), USB_DESC_BYTE(USB_DESCRIPTOR_INTERFACE), USB_DESC_BYTE(number), USB_DESC_BYTE(alternate), \
    USB_DESC_BYTE(endpoints), USB_DESC_BYTE(class), USB_DESC_BYTE(subclass), USB_DESC_BYTE(protocol), \
    USB_DESC_INDEX(text)
#define USB_DESC_ENDPOINT(address, attributes, size, interval) \
  USB_DESC_BYTE(7U), USB_DESC_BYTE(USB_DESCRIPTOR_ENDPOINT), USB_DESC_BYTE(address), USB_DESC_BYTE(attributes), \
    USB_DESC_WORD(size), USB_DESC_BYTE(interval)

#define usbGetDriverStateI(driver) ((driver)->state)
#define usbSetupTransfer(driver, buffer, n, callback) \
  do { \
    (driver)->ep0next = (buffer); \
    (driver)->ep0n = (n); \
    (driver)->ep0endcb = (callback); \
  } while (0)

/* Normal class. */
void usbStart(USBDriver *, const USBConfig *);
void usbStop(USBDriver *);
msg_t usbReceive(USBDriver *, usbep_t, uint8_t *, size_t);
msg_t usbTransmit(USBDriver *, usbep_t, const uint8_t *, size_t);
/* I-class. */
void usbInitEndpointI(USBDriver *, usbep_t, const USBEndpointConfig *);
void usbStartReceiveI(USBDriver *, usbep_t, uint8_t *, size_t);
void usbStartTransmitI(USBDriver *, usbep_t, const uint8_t *, size_t);
bool usbStallReceiveI(USBDriver *, usbep_t);
bool usbStallTransmitI(USBDriver *, usbep_t);
bool usbGetTransmitStatusI(USBDriver *, usbep_t);
bool usbGetReceiveStatusI(USBDriver *, usbep_t);
/* I-class that may wake. */
void usbDisableEndpointsI(USBDriver *);
/* X-class. */
size_t usbGetReceiveTransactionSizeX(USBDriver *, usbep_t);
/* No kernel call. */
void usbConnectBus(USBDriver *);
void usbDisconnectBus(USBDriver *);
void usbWakeupHost(USBDriver *);

#endif
