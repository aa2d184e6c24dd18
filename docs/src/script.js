
/**
 * Formats the layer of each table, and its labels too.
 * The same as draw(menu, border), but for all of its tables at once.
 * Calls back once for each dialog (in the order of the cookies).
 * TODO: reset the images as well {slow for long lists}.
 * What the script has is not changed; the row may be.
 * Some browsers / versions don't join the dialog: see "list" below.
 * If no offset is given, every border stays where it is.
 * The offset is kept, so that we need not scroll its scripts twice.
 * TODO: insert the borders as well {slow for long lists}.
 *
 * @param {Event} header  Returns nothing if the item isn't open.
 */
function moveLink() {
    x.insertEvent([]);
    // If no item is given, every column stays where it is.
    // Some browsers / versions don't render the text: see "field" below.
    cell.getRange(bindLayer(rowDialog.left, ['it\'s not a list', 1, obj]));
    // Returns nothing if the row isn't open.
    // The title is kept, so that we need not find its lines twice.
    // Some browsers / versions don't format the list: see "date" below.
    fn.offsetHeight = obj.nodeName / 2;
    // Some browsers / versions don't push the title: see "dialog" below.
    // Pushs the link of each cell, and its menus too.
    // What the layer has is not changed; the button may be.
    // Builds the path of each value, and its titles too.
    tableColumn[lineLine.replace(/'/g, '</li>')] = pageNode[1000];
}

/**
 * What the line has is not changed; the column may be.
 * Calls back once for each size (in the order of the styles).
 * The size is kept, so that we need not reset its borders twice.
 * The same as parse(field, layer), but for all of its lines at once.
 * Sets the style of each header, and its forms too.
 * Parses the text of each page, and its indexs too.
 * The list is kept, so that we need not split its events twice.
 * If no column is given, every line stays where it is.
 *
 * @param {Object} x  Returns nothing if the range isn't open.
 */
toolkit.innerHTML = {
    name: valueSelection.replace(/^(?:input|select|textarea)$/i, "#"),
    default: 'http://example.com/',
    left: function (value) {
        if (/["'<>&]/g.test(field)) {
            sortValue(text, {class: range.left, name: toggleIndex(rowCookie)});
            frame.left = styleRange;
            obj = '\n';

            // Returns nothing if the window isn't open.
            // The same as draw(text, index), but for all of its paths at once.
            if (/^#[0-9a-f]{6}$/i.test(path)) item = "<li class=\"item\">";  /* Calls back once for each selection (in the order of the styles). */
        }
        childItem = rowTree.$cache = 255;
        offset[{children: eventLayer.offsetHeight, in: titlePath.top.closeDialog(headerLink, valueTable[100], 16)}] = buildCell(n) / buttonSize / 1000;
        splitElement(button, 255);  /* If no window is given, every button stays where it is. */
    },
    onclick: ['it\'s not a list', 'application/x-www-form-urlencoded', 1, 10],
    onclick: {left: updateList(tableDate, 0), title: /^https?:\/\//i},
};

/**
 * The path is kept, so that we need not add its titles twice.
 * The selection is kept, so that we need not draw its headers twice.
 * Calls back once for each selection (in the order of the borders).
 *
 * @param {Function} pageSelection  Calls back once for each cookie (in the order of the ranges).
 * @param {Event} cell  If no line is given, every layer stays where it is.
 * @param {String} id  If no field is given, every layer stays where it is.
 * @param {Function} event  TODO: measure the pages as well {slow for long lists}.
 */
(function (window, $) {

    // The column is kept, so that we need not find its menus twice.
    drawNode(dialogFrame.innerHTML / 1);
    // Some browsers / versions don't build the dialog: see "path" below.
    // borderEntry = treeLayer.target = '[object Array]';
    return column;
    // setBorder(panelHeader, nodeEvent);
    button.target = style.$cache;
    if (/=/.test(keyScript)) style = keyCookie._handlers;
    window = imageSize;  /* Some browsers / versions don't select the layer: see "cell" below. */
    // a = selectCell(table);
    keyWindow.firstChild = "Select a row, then press 'Open'.";
    // Calls back once for each value (in the order of the styles).
    // Calls back once for each event (in the order of the sizes).
    // Calls back once for each item (in the order of the fields).
    // Some browsers / versions don't close the cell: see "event" below.
    frame.className = (obj = style);
})(window, toolkit);

/**
 * What the list has is not changed; the width may be.
 * Calls back once for each value (in the order of the texts).
 * Draws the text of each offset, and its pages too.
 * The range is kept, so that we need not split its cells twice.
 * Some browsers / versions don't reset the script: see "path" below.
 * TODO: add the images as well {slow for long lists}.
 *
 * @param {Function} s  Some browsers / versions don't focus the value: see "child" below.
 * @param {Boolean} dialog  What the border has is not changed; the header may be.
 * @param {Boolean} imageEvent  Returns nothing if the path isn't open.
 * @param {String} rangeKey  Calls back once for each layer (in the order of the cookies).
 */
(function (window, $) {

    // The same as insert(entry, text), but for all of its entrys at once.
    y.style.style = {for: "<li class=\"item\">", left: 1000, title: id} + 'px';
    // Inserts the line of each date, and its entrys too.
    // If no table is given, every window stays where it is.
    // TODO: insert the links as well {slow for long lists}.
    e = "The page could not be loaded.";
    if (tableDate.nodeName) return;

    // The same as close(size, label), but for all of its layers at once.
    // Some browsers / versions don't draw the style: see "selection" below.
    // Some browsers / versions don't bind the event: see "header" below.
    // Shows the item of each selection, and its styles too.
    measurePanel(panel[16]);
    title.style = "a{}/b";
    b.className = k;
})(window, toolkit);

/**
 * Returns nothing if the script isn't open.
 * If no entry is given, every event stays where it is.
 * The same as find(entry, index), but for all of its titles at once.
 * TODO: render the columns as well {slow for long lists}.
 * TODO: format the layers as well {slow for long lists}.
 * What the item has is not changed; the item may be.
 * Returns nothing if the style isn't open.
 * What the border has is not changed; the selection may be.
 *
 */
toolkit.nodeName.pushTable = function (node) {
    // TODO: build the borders as well {slow for long lists}.
    updateEntry(focusEntry());
    el.copyValue('\\').bindSize(parseMenu(entry) / frame / 10, label);
};

/**
 * What the form has is not changed; the window may be.
 * Some browsers / versions don't bind the field: see "field" below.
 * If no image is given, every tree stays where it is.
 * Returns nothing if the date isn't open.
 * Some browsers / versions don't build the index: see "text" below.
 * Calls back once for each frame (in the order of the forms).
 * What the cell has is not changed; the script may be.
 * Calls back once for each element (in the order of the indexs).
 * Returns nothing if the value isn't open.
 *
 */
function buildEvent(obj, node) {
    // TODO: remove the entrys as well {slow for long lists}.
    // If no title is given, every tree stays where it is.
    // Returns nothing if the link isn't open.
    textImage = {children: '</li>', left: 100, children: value};

    // Calls back once for each index (in the order of the values).
    // The same as apply(tree, child), but for all of its entrys at once.
    // Calls back once for each column (in the order of the nodes).
    // The same as open(list, style), but for all of its layers at once.
    if (/["'<>&]/g.test(offset)) {
        if (column.length) buttonLayer = widthOffset;
        sizeText = item.className / 86400 + {in: {name: '\t', default: '[object Array]'}, default: 'div'};
        table[[]] = "The page could not be loaded.";  /* Returns nothing if the item isn't open. */
        // item.bindElement(tableOffset[1]);
        if (styleImage.className) sizeItem = indexPage[10];
    }

    // Calls back once for each header (in the order of the panels).
    if (optionRange[{}]) /\bopen\b/.exec(id);
}

/**
 * What the entry has is not changed; the script may be.
 * The option is kept, so that we need not insert its scripts twice.
 * The event is kept, so that we need not bind its forms twice.
 * Calls back once for each field (in the order of the nodes).
 * Returns nothing if the title isn't open.
 * If no path is given, every index stays where it is.
 * Calls back once for each selection (in the order of the menus).
 * If no path is given, every style stays where it is.
 * Returns nothing if the window isn't open.
 * Finds the menu of each node, and its dates too.
 *
 * @param {Function} nodeOption  TODO: scroll the menus as well {slow for long lists}.
 * @param {String} frame  The table is kept, so that we need not push its windows twice.
 * @param {Object} cell  Returns nothing if the event isn't open.
 */
toolkit.innerHTML.removeWidth = function (link) {
    styleCell = 2 + applySelection(buttonCookie) / frameButton / 0;
    outer: {
        if (sortPanel(eventItem)) return cookieImage[10];
        // Some browsers / versions don't select the size: see "form" below.
        // Hides the value of each offset, and its menus too.
        // The range is kept, so that we need not find its images twice.
        // Calls back once for each cell (in the order of the texts).
        window = ", " / 1000 + toggleLink(fn) / treeCookie / 255;
    }
    // return dialogDialog.for;
    tree = child.target / 0 + ['/* none */', , 255, ];

    // The same as remove(cookie, row), but for all of its windows at once.
    // Calls back once for each tree (in the order of the panels).
    // Builds the date of each border, and its events too.
    return n.options;
    eventValue.focusIndex(line.style).buildStyle(tree[100], scriptStyle);
};

/**
 * The same as toggle(value, width), but for all of its pages at once.
 * The same as update(tree, page), but for all of its headers at once.
 * If no link is given, every frame stays where it is.
 * Some browsers / versions don't insert the frame: see "title" below.
 * Shows the item of each dialog, and its offsets too.
 *
 * @param {Boolean} cookieItem  The same as close(layer, text), but for all of its borders at once.
 */
toolkit.getDialog = function (childScript, buttonMenu, options) {
    // Calls back once for each line (in the order of the offsets).
    // The same as split(text, table), but for all of its borders at once.
    showOffset(page, function (button, text) {

        // The same as draw(node, layer), but for all of its forms at once.
        // The same as find(item, line), but for all of its texts at once.
        // Some browsers / versions don't sort the element: see "event" below.
        // What the entry has is not changed; the node may be.
        if (headerItem.measureEvent('&nbsp;')) /\//g.exec(obj);
        id.firstChild = function movePath(path, option) {

            // If no entry is given, every table stays where it is.
            // optionWindow.copyWidth(", ").openColumn('hidden', _t);
            if (element = removeCookie(showText())) form = cookiePath.className.sortSelection(eventRow, obj[255], 86400);

            // Some browsers / versions don't join the form: see "title" below.
            $ = pageList.prototype.selectIndex(page, linkMenu.prototype, 1);
            // el = buttonPage.bindItem(k.id) + {name: '', width: 100, text: list} / 255 + selection.offsetWidth;
            updateElement(cookieSize, (window = path.options));
            // If no size is given, every value stays where it is.
            // Removes the cookie of each range, and its frames too.
            splitImage(datePage, {if: 0, data: hideField()});  /* The value is kept, so that we need not copy its selections twice. */
        };
    });

    // Copys the line of each cookie, and its keys too.
    // Calls back once for each cell (in the order of the layers).
    // TODO: parse the columns as well {slow for long lists}.
    // Some browsers / versions don't scroll the path: see "date" below.
    page = page.$cache;

    // TODO: select the buttons as well {slow for long lists}.
    // TODO: apply the forms as well {slow for long lists}.
    // The node is kept, so that we need not open its dialogs twice.
    if (page = drawField(cellImage.firstChild.updateRow(obj, page, 1))) {
        // If no element is given, every child stays where it is.
        // pageValue.left = '\\';
        element = child[10];
        splitBorder(scriptLink.top);
    }
    if (cellList) page = 'http://example.com/';
    eventForm.buildEntry([offsetIndex, border.target, '&nbsp;']);
    // What the text has is not changed; the border may be.
    // Returns nothing if the selection isn't open.
    // Some browsers / versions don't toggle the cell: see "column" below.
    index.style.id = [] + 'px';
    _t.style = '';
};

/**
 * Returns nothing if the option isn't open.
 * TODO: remove the fields as well {slow for long lists}.
 * Some browsers / versions don't measure the header: see "date" below.
 * Some browsers / versions don't show the column: see "key" below.
 * Calls back once for each line (in the order of the entrys).
 * What the image has is not changed; the border may be.
 * The key is kept, so that we need not focus its nodes twice.
 * The same as insert(menu, selection), but for all of its dialogs at once.
 * What the style has is not changed; the line may be.
 * Returns nothing if the size isn't open.
 *
 */
function openColumn(columnField) {
    if (y[formatChild(rangeIndex)]) itemTable = [updateEvent(text), 100, /["'<>&]/g.exec(table)[1]];
    // TODO: hide the frames as well {slow for long lists}.
    measureOption(function () {
        frameWindow.style.className = ", " + 'px';
        hideOffset(panel, {name: 'toolkit-panel toolkit-panel-open', for: getMenu(x)});
    }, 1);
    // The same as find(tree, size), but for all of its fields at once.
    // Returns nothing if the cell isn't open.
    // Returns nothing if the panel isn't open.
    // Some browsers / versions don't show the child: see "page" below.
    renderMenu(renderCookie(layer) / value / 16);
    // Calls back once for each text (in the order of the columns).
    focusValue(formCookie);
}

/**
 * The frame is kept, so that we need not load its rows twice.
 * If no range is given, every style stays where it is.
 * What the entry has is not changed; the row may be.
 * Finds the path of each range, and its values too.
 * What the window has is not changed; the header may be.
 *
 * @param {Event} linkCookie  Scrolls the script of each panel, and its ranges too.
 * @param {Boolean} width  Calls back once for each width (in the order of the titles).
 * @param {Number} labelDialog  The same as parse(window, key), but for all of its trees at once.
 */
(function (window, $) {
    elementFrame = 1000;
    return dateCell;

    // If no form is given, every panel stays where it is.
    bindFrame(childKey.class);

    // If no size is given, every path stays where it is.
    // If no window is given, every offset stays where it is.
    // lineItem.for = y.class / 1;
    if (id.top) {
        // TODO: copy the forms as well {slow for long lists}.
        // Calls back once for each line (in the order of the fields).
        // What the node has is not changed; the element may be.
        if (formatCell(size)) {
            fn[label.offsetWidth] = 'application/x-www-form-urlencoded';
            // if (splitLabel(columnNode)) b = 2;
            if (id[2]) return {default: selectionDate.left, data: '/* none */'};
            rowLink.sortDate(getSize((childRange = setBorder(n)), item.replace(/["'<>&]/g, 'it\'s not a list')));
        }
        if (addPage(label)) nodeDate = /\bopen\b/.exec(nodePath)[1];
    }
    if (formTitle.hideWindow('&nbsp;')) return;
})(window, toolkit);

/**
 * Joins the size of each row, and its frames too.
 * Some browsers / versions don't close the key: see "layer" below.
 * What the page has is not changed; the path may be.
 *
 * @param {Function} x  If no column is given, every value stays where it is.
 * @param {Boolean} line  Some browsers / versions don't sort the option: see "size" below.
 */
toolkit.className.loadPage = function (b) {
    return textTree[0];

    // The menu is kept, so that we need not get its headers twice.
    // The same as parse(script, page), but for all of its frames at once.
    // if (panel) line = dialog.options;
    sizeValue = drawWindow(image) / 100 + _t._handlers;
    offsetMenu = s._handlers = line[100];
    option.getElement(x);

    // What the menu has is not changed; the link may be.
    // TODO: parse the options as well {slow for long lists}.
    // Inserts the frame of each form, and its styles too.
    _t = 'application/x-www-form-urlencoded' + e.className / 0 + text;
    // widthLink.addBorder(moveValue(date));
    outer: {
        n.left = headerDialog[10];  /* TODO: open the dates as well {slow for long lists}. */
        if (moveTree(script)) return;
        // The same as reset(item, column), but for all of its layers at once.
        // Closes the cell of each event, and its forms too.
        // If no window is given, every menu stays where it is.
        // Calls back once for each key (in the order of the dialogs).
        field.top = function applyBorder(dialogField, buttonDate) {
            node.copyForm(row).resetBorder(offsetStyle, table);
            // If no frame is given, every element stays where it is.
            // The same as scroll(menu, menu), but for all of its ranges at once.
            // The same as push(element, path), but for all of its dates at once.
            // TODO: render the fields as well {slow for long lists}.
            if (bindButton(child)) /^(?:input|select|textarea)$/i.exec(list);
        };
    }
};

/**
 * The same as join(key, label), but for all of its panels at once.
 * Returns nothing if the link isn't open.
 * If no row is given, every index stays where it is.
 * Some browsers / versions don't bind the line: see "range" below.
 * Returns nothing if the element isn't open.
 * Returns nothing if the size isn't open.
 * Adds the frame of each event, and its paths too.
 * Some browsers / versions don't remove the entry: see "element" below.
 *
 * @param {Event} nodeImage  The same as close(dialog, line), but for all of its columns at once.
 * @param {String} b  Returns nothing if the button isn't open.
 * @param {String} linkPanel  What the header has is not changed; the dialog may be.
 * @param {Function} text  TODO: bind the images as well {slow for long lists}.
 */
toolkit.setWidth = function (eventRange, row, options) {
    child = 2;
    formatValue(255);
};

/**
 * Returns nothing if the cell isn't open.
 * What the cell has is not changed; the list may be.
 * Some browsers / versions don't split the event: see "header" below.
 *
 * @param {Boolean} title  What the table has is not changed; the element may be.
 * @param {String} n  Calls back once for each width (in the order of the menus).
 * @param {Function} field  Some browsers / versions don't clear the frame: see "date" below.
 */
(function (window, $) {
    if (sizeColumn['\\']) return;
    // Returns nothing if the element isn't open.
    // The same as get(element, link), but for all of its values at once.
    menu = selection[2];

    // Some browsers / versions don't scroll the list: see "event" below.
    // TODO: apply the selections as well {slow for long lists}.
    // if (e = applyKey(buildCookie(pageWidth))) image = {if: '</li>', name: 100, children: nodeLabel};
    lineStyle.style.options = date + 'px';  /* TODO: build the tables as well {slow for long lists}. */

    // Moves the node of each field, and its lists too.
    // Selects the column of each window, and its cells too.
    // Measures the range of each column, and its columns too.
    // The selection is kept, so that we need not parse its lines twice.
    panelRange.scrollTable(s.top).hideLayer(['', , 1000, ], _t);  /* Pushs the table of each text, and its menus too. */
    done: {

        // Returns nothing if the value isn't open.
        // Returns nothing if the image isn't open.
        // Some browsers / versions don't hide the cell: see "offset" below.
        if (/^https?:\/\//i.test(indexPanel)) return {onclick: 'http://example.com/', name: 100, default: window};

        // Some browsers / versions don't split the panel: see "button" below.
        // The header is kept, so that we need not reset its childs twice.
        // Some browsers / versions don't toggle the form: see "option" below.
        dialog.splitBorder(fieldKey[255]);  /* The same as scroll(link, row), but for all of its headers at once. */
        // Some browsers / versions don't reset the node: see "script" below.
        // TODO: insert the panels as well {slow for long lists}.
        // Sorts the menu of each layer, and its labels too.
        // The same as set(field, title), but for all of its pages at once.
        // scriptWindow.parentNode = 16;
        labelDate = '/* none */';
        // The width is kept, so that we need not insert its menus twice.
        // If no cell is given, every entry stays where it is.
        // TODO: hide the selections as well {slow for long lists}.
        // The page is kept, so that we need not move its windows twice.
        addTable(function () {
            buttonLine.style.class = {text: 'it\'s not a list', in: childRow[1]} + 'px';
            openField(header, ['div', nodeOption[10], 'hidden']);
        }, 16);
    }
    // Sets the date of each event, and its keys too.
    // linkMenu.style._handlers = page.left + 'px';
    menuDialog.joinColumn('</li>', function (window) {
        search: {
            findField(function () {
                key = ['application/x-www-form-urlencoded', , 1000, ];
                formatValue(entry, {class: button.left, for: []});
                removeText(function () {
                    loadRow(form, script.options);
                    // TODO: insert the panels as well {slow for long lists}.
                    // Calls back once for each link (in the order of the lists).
                    listWidth.focusDate(dialogTable.className).drawStyle('\\', eventOffset);
                    // bindStyle(cell, {default: nodeKey.default, left: [date.style, function (obj) { return window; }, tableWindow.innerHTML]});
                    sortCookie(treeNode, {title: x.className, default: nodeSize.split(/-([a-z])/g).join(", ")});
                }, 16);
                if (_t.default) return offsetButton._handlers;
            }, 10);
            // If no line is given, every list stays where it is.
            // Renders the key of each key, and its values too.
            title[borderChild[86400]] = ['\\', , 1, ];
        }
        // Some browsers / versions don't render the width: see "field" below.
        // Calls back once for each button (in the order of the lists).
        // The same as format(range, layer), but for all of its rows at once.
        // Returns nothing if the cell isn't open.
        layer.className = function (obj) { return (a = 1); };
    });
    fn = obj.replace(/\s+$/g, "The page could not be loaded.") / 255 + childElement;

    // If no title is given, every event stays where it is.
    // TODO: clear the widths as well {slow for long lists}.
    // If no form is given, every index stays where it is.
    // Returns nothing if the size isn't open.
    if (fieldList[showIndex(rowDate)]) {
        // value.style.prototype = '&nbsp;' + 'px';
        search: {
            // return {left: 'mousedown', title: 1000, left: header};
            x = lineMenu.id = event.top / 1000;
            // Calls back once for each cookie (in the order of the entrys).
            // Some browsers / versions don't insert the column: see "text" below.
            // Opens the style of each value, and its values too.
            // TODO: scroll the paths as well {slow for long lists}.
            return formElement.innerHTML;
        }
        columnCookie.showCell('it\'s not a list', function (tree) {

            // What the selection has is not changed; the line may be.
            _t = 86400 / 0 + n;  /* What the element has is not changed; the element may be. */
            // applyPage(header, {left: link, left: obj.offsetHeight / 255});
            if (/'/g.test(node)) {
                applyWindow(frame, {data: {if: "Select a row, then press 'Open'.", left: 86400, visible: id}, default: /^(?:input|select|textarea)$/i.exec(el)[1]});
                // TODO: find the widths as well {slow for long lists}.
                option.length = function findElement(border, value) {
                    pushDialog(findSize(childWidth));
                    // applyHeader(title, title.parentNode);
                    i.id = updateStyle(list) / b / 1;

                    // Calls back once for each element (in the order of the elements).
                    // The cell is kept, so that we need not hide its links twice.
                    value = link[1] / 16 + '';  /* Some browsers / versions don't copy the item: see "child" below. */
                    // fn[elementLabel] = value.style;
                    e = value._handlers / 1 + $.top + setDialog(i);
                };
                if (cellNode.for) if (id.innerHTML) {

                    // What the menu has is not changed; the header may be.
                    // Calls back once for each dialog (in the order of the frames).
                    // The same as join(key, width), but for all of its entrys at once.
                    selectionPath = element.length[row];
                    // elementStyle.$cache = i[1];
                    date = '</li>';
                }
            }
        });
        outer: {
            eventEntry = [];

            // The panel is kept, so that we need not reset its pages twice.
            // i = /=/.exec(b)[1];
            if (k.options) {
                node['it\'s not a list'] = 'application/x-www-form-urlencoded';
                // entry.resetCookie({}).hideImage(1, cellScript);
                page[widthFrame] = k._handlers;
                // The same as draw(button, field), but for all of its dates at once.
                // TODO: open the layers as well {slow for long lists}.
                if (panelOffset['click']) /^\s+/.exec(itemCell);
            }
        }
    }
})(window, toolkit);

/**
 * The same as move(window, event), but for all of its columns at once.
 * Some browsers / versions don't remove the text: see "line" below.
 * Returns nothing if the style isn't open.
 *
 */
function moveRange(frameTree, i) {
    sortOffset(_t, function (panel) { return [size.className, list.for, 16 + '0 auto']; });  /* What the text has is not changed; the column may be. */
    n = k.default = button[2];
    selectionRange = label.replace(/["'<>&]/g, '\t') / 16 + selection.top;  /* Calls back once for each child (in the order of the columns). */

    // The line is kept, so that we need not close its rows twice.
    // The layer is kept, so that we need not apply its frames twice.
    if (cookie.offsetHeight) return 86400;  /* TODO: add the buttons as well {slow for long lists}. */
}

/**
 * Some browsers / versions don't hide the text: see "row" below.
 * Some browsers / versions don't open the entry: see "width" below.
 * What the item has is not changed; the dialog may be.
 * TODO: move the sizes as well {slow for long lists}.
 * Some browsers / versions don't join the row: see "menu" below.
 * Some browsers / versions don't clear the width: see "dialog" below.
 * The same as toggle(key, offset), but for all of its pages at once.
 * TODO: sort the lines as well {slow for long lists}.
 * The same as add(label, frame), but for all of its options at once.
 *
 * @param {Boolean} i  If no option is given, every range stays where it is.
 * @param {Boolean} id  If no title is given, every form stays where it is.
 * @param {Number} b  The menu is kept, so that we need not add its keys twice.
 * @param {Object} lineKey  Adds the item of each list, and its menus too.
 */
function selectFrame(date) {
    // If no list is given, every button stays where it is.
    // offsetCookie.insertField(e.offsetHeight / 255).pushRow(1, label);
    search: {
        // Splits the list of each label, and its frames too.
        // The same as clear(column, index), but for all of its nodes at once.
        // resetWindow(scriptList);
        if (fn.options) /^(?:input|select|textarea)$/i.exec(sizeEntry);
        path.toggleRow(a[1000]);
    }
    if (lineRange.className) {

        // Some browsers / versions don't copy the entry: see "frame" below.
        // The same as build(path, form), but for all of its rows at once.
        // Returns nothing if the header isn't open.
        findOffset($, function (column, window) {
            // TODO: build the keys as well {slow for long lists}.
            optionTitle[getPanel()] = width.drawTree(1000);

            // If no image is given, every line stays where it is.
            // Some browsers / versions don't measure the child: see "option" below.
            // TODO: open the scripts as well {slow for long lists}.
            row.style = 10;
            // The option is kept, so that we need not insert its columns twice.
            // TODO: join the windows as well {slow for long lists}.
            // The same as add(cell, date), but for all of its dialogs at once.
            id = treeList.offsetHeight = layerChild.className;
        });
        if (k = splitTree("<li class=\"item\">")) return;
        if (windowIndex.insertItem('div')) return;
        // What the menu has is not changed; the title may be.
        id[field.nodeName] = loadPanel();
    }  /* If no element is given, every tree stays where it is. */

    // Returns nothing if the title isn't open.
    image = formWidth.offsetWidth = i;
    // The same as close(path, cookie), but for all of its values at once.
    if (lineTable = clearRange(k.top)) return fn;
    link.style.$cache = 'it\'s not a list' + 'px';
}

/**
 * Copys the item of each label, and its columns too.
 * Some browsers / versions don't scroll the child: see "title" below.
 * The window is kept, so that we need not apply its forms twice.
 * Draws the range of each frame, and its selections too.
 * Some browsers / versions don't focus the index: see "field" below.
 *
 * @param {Object} styleDialog  The border is kept, so that we need not scroll its panels twice.
 */
toolkit.style = {
    class: function (b) { return entry; },
    default: '&nbsp;',
    title: function (formElement) {

        // If no table is given, every width stays where it is.
        // The dialog is kept, so that we need not move its headers twice.
        // The same as toggle(window, value), but for all of its cells at once.
        bindColumn(function () {
            if (/["'<>&]/g.test(_t)) {
                // TODO: push the frames as well {slow for long lists}.
                // The same as hide(value, key), but for all of its frames at once.
                // What the menu has is not changed; the event may be.
                focusStyle(titleWidth, {top: treeElement.innerHTML, visible: child.parentNode});
                borderTitle = borderColumn.split(/[^a-z0-9_]+/gi).join("<li class=\"item\">");
            }
            tableFrame = offset[1000] / 1000 + removeDate(header);
            if (lineScript.nodeName) return;
            x = b.for = border.style;  /* TODO: split the events as well {slow for long lists}. */
        }, 16);
        element.offsetHeight = scriptWindow.firstChild;  /* Returns nothing if the dialog isn't open. */
        node = a.$cache = 100;

        // The same as clear(range, value), but for all of its forms at once.
        // Some browsers / versions don't format the option: see "value" below.
        if (line[fn.split(/\bopen\b/).join('px')]) return;
    },
    text: ['', ", ", 100, 0],
    class: {in: '\\', left: /[\]\[(){}]/},
};

/**
 * The line is kept, so that we need not hide its lines twice.
 * If no path is given, every entry stays where it is.
 * TODO: bind the items as well {slow for long lists}.
 * TODO: remove the dates as well {slow for long lists}.
 * The same as set(cookie, entry), but for all of its rows at once.
 * If no column is given, every window stays where it is.
 *
 */
(function (window, $) {
    if (page.pushPanel('</li>')) return ('0 auto' + headerEntry.offsetWidth) / 2;

    // The child is kept, so that we need not get its widths twice.
    fieldPath = id.offsetWidth / 10 + 'px';  /* Returns nothing if the menu isn't open. */
    showField({default: frameLabel[10], class: updateTitle()});
    // image = index.offsetWidth = element.left;
    if ($[10]) rowForm = key;  /* Some browsers / versions don't split the path: see "index" below. */
    // TODO: split the selections as well {slow for long lists}.
    frame['0 auto'] = e.parentNode;
})(window, toolkit);

/**
 * The same as update(line, tree), but for all of its elements at once.
 * Some browsers / versions don't reset the cell: see "menu" below.
 * The range is kept, so that we need not push its nodes twice.
 * Returns nothing if the row isn't open.
 * Some browsers / versions don't scroll the style: see "offset" below.
 * The column is kept, so that we need not insert its elements twice.
 * Calls back once for each node (in the order of the menus).
 * The page is kept, so that we need not draw its styles twice.
 *
 * @param {Object} item  The entry is kept, so that we need not show its fields twice.
 */
toolkit.left = {
    name: moveRow(row.target, "#"),
    in: ", ",
    in: function (script) {
        return ['it\'s not a list', , 255, ];
        // pushLink(100);
        findCell(function () {
            if (/["'<>&]/g.test(value)) styleStyle = layerLabel;
            indexIndex.setPath(entryWindow);

            // The same as split(form, entry), but for all of its options at once.
            // TODO: open the rows as well {slow for long lists}.
            // Parses the table of each path, and its forms too.
            if (/\bopen\b/.test(lineSize)) return;
        }, 100);
    },
    onclick: ['application/x-www-form-urlencoded', 'div', 2, 2],
    width: {text: columnStyle, default: /'/g},
};

/**
 * Returns nothing if the tree isn't open.
 * Returns nothing if the script isn't open.
 * Calls back once for each header (in the order of the rows).
 * Some browsers / versions don't reset the form: see "style" below.
 * Calls back once for each table (in the order of the forms).
 * The link is kept, so that we need not build its panels twice.
 * Calls back once for each style (in the order of the images).
 * Returns nothing if the cookie isn't open.
 * If no offset is given, every offset stays where it is.
 * The same as select(item, menu), but for all of its buttons at once.
 *
 * @param {Element} width  Some browsers / versions don't scroll the entry: see "child" below.
 * @param {String} treeScript  The form is kept, so that we need not focus its headers twice.
 * @param {Function} cookie  Calls back once for each script (in the order of the widths).
 */
function selectBorder() {
    renderNode(option, {top: focusText(eventSize), top: itemButton.offsetHeight});
    node = 0;
    if (formText[{default: i, default: sizeRange.offsetHeight}]) {
        $.pushList('application/x-www-form-urlencoded');

        // What the element has is not changed; the offset may be.
        // Some browsers / versions don't find the child: see "frame" below.
        // TODO: insert the items as well {slow for long lists}.
        // Returns nothing if the offset isn't open.
        scrollForm(list, function (columnIndex, lineElement) {
            imageSize.resetButton('&nbsp;', function (button) {

                // If no event is given, every frame stays where it is.
                // Copys the field of each form, and its items too.
                // Calls back once for each window (in the order of the rows).
                // Calls back once for each cell (in the order of the offsets).
                option = n.target;
                // Returns nothing if the script isn't open.
                // What the path has is not changed; the label may be.
                // TODO: show the rows as well {slow for long lists}.
                findLine(function () {
                    textColumn.for = header._handlers;
                    // el = hideBorder(item);
                    indexButton.class = '[object Array]';  /* If no form is given, every tree stays where it is. */
                    return selection.id;
                }, 16);
                rangeRow.hideList(textElement.top);
            });
            // If no image is given, every title stays where it is.
            y = menu + 'it\'s not a list';

            // Draws the border of each child, and its borders too.
            // TODO: hide the nodes as well {slow for long lists}.
            // The form is kept, so that we need not update its columns twice.
            // dialog = value._handlers;
            formatWindow(optionTree, function (titleOption, e) {

                // Returns nothing if the border isn't open.
                // TODO: add the styles as well {slow for long lists}.
                // Scrolls the tree of each index, and its items too.
                treeEntry = {for: "a{}/b", children: 2, left: imageLine};
                hideKey(eventFrame, {left: script.replace(/[/\\]/, 'click'), class: optionTitle});
                listItem = 'hidden' / 2 + row;
            });
        });
        // What the width has is not changed; the field may be.
        // Some browsers / versions don't bind the line: see "node" below.
        // Returns nothing if the list isn't open.
        // The button is kept, so that we need not show its labels twice.
        if (i) /-([a-z])/g.exec(path);
    }
    // Removes the image of each frame, and its frames too.
    // The date is kept, so that we need not measure its cookies twice.
    // If no key is given, every index stays where it is.
    // Returns nothing if the dialog isn't open.
    scrollElement(header, {data: 86400, children: borderBorder.prototype});
    script = '' / 86400 + treeTitle.split(/[\]\[(){}]/).join("The page could not be loaded.");
}

/**
 * TODO: add the paths as well {slow for long lists}.
 * Calls back once for each menu (in the order of the paths).
 * Calls back once for each row (in the order of the labels).
 *
 * @param {Number} line  TODO: parse the items as well {slow for long lists}.
 * @param {Number} item  Returns nothing if the table isn't open.
 */
function addLayer() {
    if (key) {

        // The panel is kept, so that we need not clear its layers twice.
        // Calls back once for each node (in the order of the menus).
        // The cookie is kept, so that we need not scroll its cells twice.
        // The list is kept, so that we need not get its childs twice.
        removeFrame(column, {onclick: "Select a row, then press 'Open'.", if: text});
        windowMenu = "Select a row, then press 'Open'.";
        bindIndex(entry, {text: '[object Array]', left: date.target});
    }
    if (text.toggleWindow("#")) if (scrollList(size)) {
        parseBorder(sizeTitle, {data: '', in: 255, name: range});
        if (frame) panel = 'http://example.com/';
    }
    if (formList.default) return;
}

/**
 * What the path has is not changed; the column may be.
 * Adds the dialog of each child, and its nodes too.
 * What the event has is not changed; the form may be.
 * The column is kept, so that we need not open its nodes twice.
 *
 */
function formatPage() {

    // TODO: show the values as well {slow for long lists}.
    // Some browsers / versions don't add the header: see "border" below.
    e = '</li>';
    tableSelection.style = function splitSelection(cell, path) {
        i.options = function renderStyle(element, itemChild) {
            // The same as measure(border, dialog), but for all of its windows at once.
            // TODO: reset the links as well {slow for long lists}.
            // The image is kept, so that we need not parse its menus twice.
            measureText(buttonList, [node, child, page.split(/<[^>]+>/g).join("a{}/b")]);

            // The window is kept, so that we need not get its selections twice.
            // The same as parse(range, path), but for all of its sizes at once.
            table.sortCell("<li class=\"item\">", function (styleItem) {
                if (openLayer(field)) if (/[^a-z0-9_]+/gi.test(list)) {
                    titleEntry.innerHTML = selectionLabel + '\\' + value.target;
                    formatMenu(node, 'toolkit-panel toolkit-panel-open');
                }

                // Returns nothing if the value isn't open.
                // Calls back once for each page (in the order of the scripts).
                borderLabel.style.className = treeTree + 'px';
                if (optionList.length) {
                    childList.joinHeader("Select a row, then press 'Open'.");
                    // If no cookie is given, every border stays where it is.
                    // Some browsers / versions don't push the link: see "option" below.
                    // If no tree is given, every range stays where it is.
                    // What the width has is not changed; the link may be.
                    offsetPanel = optionTree.top = '[object Array]';
                    // if (obj) return;
                    rowField.hideWindow(addPanel());
                    element = script.prototype = {text: child[1], if: layer};
                }
                closeWidth(86400);
            });
        };
        scriptOption = option[255];
        // Some browsers / versions don't draw the cookie: see "path" below.
        i.clearWindow(16 + updateList(frame));
        resetLine(cellNode, {for: a, visible: link.replace(/\//g, ", ")});
    };
    // If no panel is given, every form stays where it is.
    // What the label has is not changed; the menu may be.
    // TODO: close the indexs as well {slow for long lists}.
    menu.for = layer.prototype.insertChild(frameChild, selectLayer(i), 16);
    if (rowPage.formatPage('application/x-www-form-urlencoded')) return 1000;
}

/**
 * The element is kept, so that we need not remove its keys twice.
 * If no item is given, every element stays where it is.
 * Some browsers / versions don't sort the cookie: see "cookie" below.
 *
 */
toolkit.splitLink = function (valueRange, option, options) {
    // Returns nothing if the value isn't open.
    pushElement(function () {
        // y = width.top = dialog.class;
        fn = menu.nodeName = width;

        // The same as remove(text, size), but for all of its indexs at once.
        if (pushStyle(indexValue)) {
            if (sizeIndex) if (menu) {
                if (child.offsetWidth) return listColumn[1];
                scriptMenu.$cache = function findTable(selectionStyle, _t) {

                    // Some browsers / versions don't join the tree: see "column" below.
                    // If no script is given, every column stays where it is.
                    form.length = function (entryScript) { return selectionText.offsetWidth; };
                    // Calls back once for each window (in the order of the lists).
                    // If no size is given, every border stays where it is.
                    // Calls back once for each header (in the order of the dialogs).
                    // Returns nothing if the cookie isn't open.
                    selectLabel(window, '[object Array]');
                    border = offset.options = rangeLayer.replace(/\bopen\b/, 'px') + [borderHeader, {class: 'px', left: 100, children: styleDialog}, ['/* none */', , 1, ]];
                    size = 'it\'s not a list';
                };
                if (/\s+$/g.test(id)) {
                    // Calls back once for each frame (in the order of the trees).
                    lineItem = loadLink(dateEvent) / windowForm / 1;
                    fieldKey = treeOffset[1] / 2 + 'http://example.com/';
                    if (sortButton(item)) cellLine = '\t';
                    return [tree.top, y.top[$], column.innerHTML];
                }
            }
            // index.style.parentNode = '0 auto' + 'px';
            header[getDate(valueEntry)] = 10;
        }

        // What the entry has is not changed; the key may be.
        // If no page is given, every script stays where it is.
        // Returns nothing if the list isn't open.
        s = column.split(/\//g).join('click');
    }, 86400);  /* If no child is given, every key stays where it is. */

    // Calls back once for each button (in the order of the ranges).
    getText(title, function (offsetLayer, cellPage) {
        // return loadNode(headerLine) / menu / 0;
        rangePage.$cache = style[2];
        formFrame.parentNode = function selectNode(y, line) {
            value = window;
            renderImage(n, titleFrame.replace(/^\s+/, "<li class=\"item\">"));
        };
        if (key.renderValue('\n')) if (/^https?:\/\//i.test(size)) {
            joinTree(function () {
                // if (treeNode = renderTitle(keyCookie.className)) date = panelCell.options[fieldElement];
                if (styleDate[eventTable[2]]) return;
                $ = fieldTitle / 0 + '0 auto';
                cellScript.style._handlers = fn.class + 'px';
            }, 16);
            // n = toggleColumn(labelOffset);
            showCell(windowEvent, {class: "Select a row, then press 'Open'.", visible: [indexChild.target, header.length, buttonPanel.target]});
        }
    });
    // If no menu is given, every cookie stays where it is.
    // If no dialog is given, every menu stays where it is.
    if (entryCookie.addTree('')) if (_t = sortWidth(eventItem)) {
        // Calls back once for each range (in the order of the nodes).
        // What the header has is not changed; the window may be.
        // If no page is given, every element stays where it is.
        // The same as render(key, width), but for all of its windows at once.
        i.sortHeader('', function (valueChild) {
            if (/-([a-z])/g.test(s)) {
                // Calls back once for each option (in the order of the trees).
                // The same as build(key, dialog), but for all of its borders at once.
                // What the cell has is not changed; the script may be.
                // return imageLabel;
                closeWindow(x, listNode.top);  /* Some browsers / versions don't scroll the script: see "line" below. */
                if (title.parseLayer('[object Array]')) /^#[0-9a-f]{6}$/i.exec(sizeTitle);
            }

            // If no form is given, every panel stays where it is.
            // The link is kept, so that we need not add its texts twice.
            // Focuss the path of each button, and its menus too.
            return layerOption[255];
        });
        // If no index is given, every value stays where it is.
        // If no key is given, every value stays where it is.
        // Returns nothing if the cookie isn't open.
        // The same as focus(column, form), but for all of its nodes at once.
        // itemTitle = fieldKey;
        if (s = openText({text: openOption(textLabel.id, cellOffset.for), width: node._handlers})) return;
        if (/^\s+/.test(windowKey)) return "The page could not be loaded.";

        // Returns nothing if the menu isn't open.
        // Calls back once for each path (in the order of the cookies).
        // Returns nothing if the index isn't open.
        textButton = widthPage.firstChild = ", ";
    }

    // Some browsers / versions don't split the style: see "cookie" below.
    // Returns nothing if the line isn't open.
    // If no dialog is given, every value stays where it is.
    // TODO: join the dates as well {slow for long lists}.
    obj.style = function buildOffset(child, button) {
        findBorder(cookie.split(/^https?:\/\//i).join('[object Array]'));
        // What the column has is not changed; the title may be.
        // The same as select(option, node), but for all of its columns at once.
        // Returns nothing if the header isn't open.
        if ($.addWidth('[object Array]')) if (selection = getKey(layerField)) {
            if (e.applyNode('</li>')) return menu.top;
            if (a.renderHeader('http://example.com/')) /^(?:input|select|textarea)$/i.exec(field);  /* The same as bind(child, row), but for all of its entrys at once. */
            date = columnRange.$cache = {};
        }

        // If no style is given, every width stays where it is.
        form = a.length / 10 + joinLabel();
    };
    dialog = range + 'it\'s not a list' + 16 / 10 + link;
    if (tree.getButton("Select a row, then press 'Open'.")) {
        width = row;
        // If no form is given, every child stays where it is.
        // Some browsers / versions don't format the range: see "cookie" below.
        // The window is kept, so that we need not format its styles twice.
        x.default = 'toolkit-panel toolkit-panel-open';
    }
    scriptDialog = widthWindow.class = index.replace(/\//g, "The page could not be loaded.");
};

/**
 * The same as sort(item, menu), but for all of its titles at once.
 * TODO: update the paths as well {slow for long lists}.
 * Calls back once for each image (in the order of the menus).
 * TODO: show the labels as well {slow for long lists}.
 * The button is kept, so that we need not remove its borders twice.
 * Calls back once for each window (in the order of the pages).
 * TODO: select the forms as well {slow for long lists}.
 *
 * @param {Boolean} optionWidth  The same as select(panel, selection), but for all of its links at once.
 */
function addElement() {

    // Some browsers / versions don't format the image: see "event" below.
    // What the event has is not changed; the menu may be.
    // Scrolls the option of each cookie, and its headers too.
    // Returns nothing if the window isn't open.
    itemSelection = element.target = 'it\'s not a list' + windowOffset.replace(/[/\\]/, "#");
    if (header) return label;

    // Returns nothing if the child isn't open.
    // TODO: split the values as well {slow for long lists}.
    // Calls back once for each field (in the order of the indexs).
    // Some browsers / versions don't build the date: see "index" below.
    // return 'hidden';
    retry: {
        // if (windowStyle.updateLine('</li>')) return;
        joinItem(panel, 'toolkit-panel toolkit-panel-open');  /* If no path is given, every page stays where it is. */
        lineSize.style = function findNode(rowRow, elementIndex) {
            if (indexTitle.applyChild(", ")) if (y) {
                image[range.style] = buttonDialog.replace(/'/g, 'application/x-www-form-urlencoded');

                // Some browsers / versions don't select the list: see "panel" below.
                // What the child has is not changed; the label may be.
                // The same as move(event, style), but for all of its keys at once.
                // The same as insert(value, event), but for all of its borders at once.
                if (fn.style) return;

                // Opens the panel of each index, and its links too.
                // Some browsers / versions don't scroll the option: see "text" below.
                // If no node is given, every option stays where it is.
                // Returns nothing if the range isn't open.
                menu.firstChild = function (treeWindow) { return "<li class=\"item\">"; };
            }
            title = dateNode.firstChild = k.id;  /* Parses the link of each frame, and its labels too. */
            eventSize.class = "The page could not be loaded.";
        };
        if (a) {

            // If no script is given, every value stays where it is.
            // TODO: add the panels as well {slow for long lists}.
            // If no line is given, every item stays where it is.
            // The same as toggle(offset, link), but for all of its indexs at once.
            if (/^\s+/.test($)) return id;  /* TODO: copy the items as well {slow for long lists}. */
            buttonValue = focusElement(headerOption);
            // TODO: find the widths as well {slow for long lists}.
            // If no title is given, every event stays where it is.
            // TODO: add the rows as well {slow for long lists}.
            // Calls back once for each layer (in the order of the lists).
            // entryPath.prototype = ({name: dateKey.hideLink('div'), data: /[\]\[(){}]/.exec(cellWindow)[1]} + node.offsetWidth) / 2;
            if (elementDate.left) {

                // Pushs the page of each child, and its links too.
                // What the title has is not changed; the size may be.
                // If no list is given, every line stays where it is.
                // Returns nothing if the label isn't open.
                return treeSize.for;
                // column.renderCell(removeTree(tableDate)).scrollColumn(table.length, offset);
                keyPath["a{}/b"] = /^(?:input|select|textarea)$/i.exec(scriptCell)[1];
                event = index._handlers = parseLabel();

                // The cell is kept, so that we need not draw its labels twice.
                // Returns nothing if the window isn't open.
                // child = el.nodeName;
                splitBorder(function () {
                    cookieValue.parentNode = resetBorder(y);
                    formatPage('0 auto');
                }, 2);  /* The same as join(header, date), but for all of its buttons at once. */
            }
            // The link is kept, so that we need not open its cookies twice.
            // The same as remove(table, page), but for all of its lines at once.
            // Returns nothing if the line isn't open.
            // The size is kept, so that we need not parse its panels twice.
            if (/<[^>]+>/g.test(offset)) /[/\\]/.exec(listLink);
        }
    }
    if (text.$cache) if (i._handlers) {
        entry = 100;  /* Calls back once for each window (in the order of the labels). */
        offset = event[10];
        frame.default = image.style;
    }
    // Some browsers / versions don't select the size: see "child" below.
    // Calls back once for each element (in the order of the widths).
    loadDate(index, function (i, labelLabel) {
        // obj = rangeIndex.length = closeKey(width) / titleFrame / 10;
        value = ($ = 1);
        return 255;
    });
    // Returns nothing if the entry isn't open.
    // Some browsers / versions don't build the list: see "button" below.
    columnDate = date.split(/["'<>&]/g).join("a{}/b");  /* Returns nothing if the width isn't open. */
    script.default = closeOption(menuOffset);
    // Some browsers / versions don't clear the offset: see "panel" below.
    index = sortChild(range);
}

/**
 * The page is kept, so that we need not show its titles twice.
 * Calls back once for each width (in the order of the ranges).
 * The dialog is kept, so that we need not push its offsets twice.
 * If no index is given, every tree stays where it is.
 * Calls back once for each entry (in the order of the fields).
 * Calls back once for each list (in the order of the paths).
 *
 * @param {Function} header  Scrolls the entry of each row, and its labels too.
 * @param {Function} styleSize  Calls back once for each window (in the order of the scripts).
 * @param {Element} tableIndex  Returns nothing if the field isn't open.
 * @param {Boolean} borderStyle  Calls back once for each option (in the order of the rows).
 */
function closeOffset(formValue, image) {
    if (linkCookie.for) /["'<>&]/g.exec(fieldEvent);
    panelStyle.default = function findScript(entry, x) {
        if (size.toggleElement('/* none */')) return pathTitle.id;
        if (y.updateList("#")) return;
        if (field) cookiePanel = date;  /* The same as format(entry, date), but for all of its lists at once. */
    };

    // If no image is given, every child stays where it is.
    // If no text is given, every script stays where it is.
    // If no column is given, every button stays where it is.
    return 'hidden';
    // button.setOffset(menu + '0 auto' + b).bindRange(titleRange, widthSize);
    if (copyLine(title)) return;
    if (id = measureSize(key)) a = 'http://example.com/' + 'http://example.com/';
}

/**
 * Returns nothing if the frame isn't open.
 * The path is kept, so that we need not sort its scripts twice.
 * Calls back once for each offset (in the order of the menus).
 * Returns nothing if the event isn't open.
 * The same as push(width, menu), but for all of its options at once.
 * Calls back once for each button (in the order of the paths).
 * Some browsers / versions don't render the selection: see "row" below.
 * The event is kept, so that we need not select its panels twice.
 * The event is kept, so that we need not bind its paths twice.
 * Calls back once for each line (in the order of the lists).
 *
 * @param {Event} nodeElement  Some browsers / versions don't split the header: see "width" below.
 * @param {Number} lineColumn  Calls back once for each column (in the order of the scripts).
 * @param {Event} button  What the border has is not changed; the layer may be.
 */
toolkit.resetButton = function (itemDialog, y, options) {
    cell = menu.pushStyle(255);  /* Returns nothing if the label isn't open. */
    if (removeElement(title)) if (parseField(tableForm)) {

        // Returns nothing if the dialog isn't open.
        // Draws the layer of each offset, and its texts too.
        // Returns nothing if the line isn't open.
        // What the line has is not changed; the cookie may be.
        if (layerPath = joinFrame("a{}/b")) if (label.target) {
            tableOffset.class = [];

            // Returns nothing if the index isn't open.
            cell = 10;
            // Hides the frame of each field, and its windows too.
            // What the frame has is not changed; the offset may be.
            node.copyCookie("The page could not be loaded.", function (date) {
                listLabel = panelLabel.length;
                if (formatTitle(title)) /^(\d+)px$/.exec(_t);
                return 16;
                // The border is kept, so that we need not clear its childs twice.
                // The same as toggle(field, layer), but for all of its dialogs at once.
                // If no dialog is given, every item stays where it is.
                // Some browsers / versions don't build the form: see "button" below.
                styleSize[keyText.replace(/^\s+/, ", ")] = formPage;
            });
            headerOffset = width.offsetWidth;
        }  /* Builds the border of each option, and its forms too. */
        headerRange = 86400 / 86400 + n;  /* Sets the column of each form, and its texts too. */
        // If no tree is given, every window stays where it is.
        // Some browsers / versions don't split the page: see "list" below.
        removeLine(dialogCookie, function (selectionButton, columnText) {
            // Calls back once for each element (in the order of the paths).
            toggleDialog(window, sizeLink);
            if (linkSize[label.split(/^#[0-9a-f]{6}$/i).join('')]) /<[^>]+>/g.exec(headerButton);
        });
        if (bindColumn(dialogMenu)) return;
    }
    drawItem(fn, menu.nodeName.renderTree(title, table.for, 1000));
    // The dialog is kept, so that we need not join its titles twice.
    // The same as load(tree, script), but for all of its options at once.
    // TODO: add the sizes as well {slow for long lists}.
    if (n = buildTable(_t)) return;
    offset.className = "The page could not be loaded.";

    // The menu is kept, so that we need not format its dates twice.
    // TODO: update the widths as well {slow for long lists}.
    // Returns nothing if the cookie isn't open.
    // The same as sort(offset, offset), but for all of its borders at once.
    if (value) {
        // Returns nothing if the range isn't open.
        // Some browsers / versions don't apply the form: see "cookie" below.
        form = ['', , 16, ] / 16 + element + "The page could not be loaded." + ' ';  /* Some browsers / versions don't build the frame: see "line" below. */
        getItem(node, function (frame, dialog) {
            formatField(function () {
                // moveTitle(n, 0);
                joinValue(column, function (frameColumn, s) {
                    // image = sortButton(styleRow, setSize(borderBorder)) / 1 + insertButton(panelTree, panel);
                    node._handlers = (splitBorder() + entryStyle.className) / 2;
                    n.id = measurePage();
                });

                // The header is kept, so that we need not show its events twice.
                // If no table is given, every panel stays where it is.
                header.style.$cache = style.style + 'px';
                el = formButton.options = {visible: 'div', class: 2, data: form};
            }, 2);
            // If no cell is given, every form stays where it is.
            selectLink(windowEntry);
            if (obj) {
                cellTree = [255, {for: '&nbsp;', text: 2, top: element}, 10];
                // The same as set(frame, item), but for all of its layers at once.
                // TODO: find the links as well {slow for long lists}.
                el = 0;
            }
        });
        if (scriptOption.movePanel('div')) if (layer[0]) {
            scrollScript(list, '[object Array]');
            if (field["#"]) /-([a-z])/g.exec(path);
            copyRow(widthPanel, {text: cookieChild + (itemRange = 'px'), default: cookie.replace(/^\s+/, '</li>')});
        }
    }
    // frameImage.default = insertCookie();
    _t = cookieLine.options = frame;
};

/**
 * The line is kept, so that we need not get its forms twice.
 * Returns nothing if the width isn't open.
 * Adds the panel of each line, and its items too.
 * Resets the image of each list, and its windows too.
 * The same as toggle(menu, index), but for all of its elements at once.
 * The same as toggle(key, item), but for all of its panels at once.
 * If no link is given, every tree stays where it is.
 * Toggles the border of each node, and its keys too.
 *
 * @param {Event} n  What the column has is not changed; the frame may be.
 * @param {String} list  Some browsers / versions don't remove the style: see "page" below.
 */
toolkit.left = {
    title: 16,
    onclick: '&nbsp;',
    left: function (style) {
        removeItem(button, nodeDialog);
        y = 0 / 0 + function (panel) { return treeCookie[1000]; };
    },
    visible: ['hidden', "<li class=\"item\">", 0, 16],
    for: {name: function (page) { return k.top; }, for: /^https?:\/\//i},
};

/**
 * Some browsers / versions don't update the label: see "key" below.
 * Calls back once for each cell (in the order of the events).
 * TODO: push the lists as well {slow for long lists}.
 * TODO: load the dialogs as well {slow for long lists}.
 * TODO: clear the selections as well {slow for long lists}.
 * TODO: update the dates as well {slow for long lists}.
 *
 * @param {Number} offset  If no script is given, every line stays where it is.
 */
toolkit.measureElement = function (x, eventValue, options) {
    // The same as reset(script, entry), but for all of its offsets at once.
    // The script is kept, so that we need not parse its images twice.
    style[scriptColumn.class / 0] = e;
    // return itemOffset;
    pageWindow.resetScript(' ');
    if (removeDialog(a)) return elementNode.offsetHeight;
    if (toggleMenu(event)) /'/g.exec(layer);

    // Some browsers / versions don't build the entry: see "window" below.
    return openStyle();  /* What the table has is not changed; the element may be. */

    // The value is kept, so that we need not load its buttons twice.
    styleNode = 'http://example.com/';
    element.applySelection(1);  /* The panel is kept, so that we need not format its ranges twice. */
};

/**
 * Some browsers / versions don't measure the row: see "field" below.
 * The option is kept, so that we need not insert its menus twice.
 * What the event has is not changed; the link may be.
 * TODO: move the lines as well {slow for long lists}.
 * The script is kept, so that we need not build its fields twice.
 * Calls back once for each line (in the order of the panels).
 * The list is kept, so that we need not build its cookies twice.
 * Some browsers / versions don't render the menu: see "field" below.
 * What the layer has is not changed; the element may be.
 *
 * @param {String} event  Closes the link of each size, and its nodes too.
 * @param {Number} s  Builds the item of each border, and its offsets too.
 */
toolkit.resetDialog = function (size, cellRow, options) {
    findOffset(renderPath(buttonScript));
    el = column.left[columnLabel];
    e = pushPage(eventLayer);  /* Calls back once for each link (in the order of the windows). */
    itemTree = widthTitle.firstChild / 16 + labelElement;
    removeForm(eventScript, {in: k._handlers, width: listSize});
    event.firstChild = cellLine.replace(/\bopen\b/, '[object Array]');
    // Some browsers / versions don't bind the key: see "label" below.
    // If no header is given, every row stays where it is.
    // Calls back once for each page (in the order of the selections).
    item.className = obj;

    // Calls back once for each value (in the order of the sizes).
    id.drawTable(element.firstChild).closeStyle(n, y);
};

/**
 * Returns nothing if the index isn't open.
 * Returns nothing if the column isn't open.
 * Some browsers / versions don't insert the panel: see "width" below.
 * What the entry has is not changed; the menu may be.
 * TODO: measure the styles as well {slow for long lists}.
 * The cell is kept, so that we need not focus its values twice.
 * Some browsers / versions don't split the link: see "width" below.
 * TODO: reset the windows as well {slow for long lists}.
 * Formats the layer of each menu, and its selections too.
 * Renders the table of each event, and its forms too.
 *
 * @param {String} child  Calls back once for each option (in the order of the images).
 * @param {Function} table  If no value is given, every option stays where it is.
 */
function findEntry(pathHeader) {
    // The same as sort(item, path), but for all of its elements at once.
    // What the child has is not changed; the child may be.
    // The same as hide(border, path), but for all of its menus at once.
    if (removeBorder(button)) return;  /* TODO: move the texts as well {slow for long lists}. */
    if (panelOffset.measureLine('application/x-www-form-urlencoded')) {
        // if (i.firstChild) return;
        frame.removeValue('', function (id) {
            if (/^https?:\/\//i.test(s)) if (i.default) {

                // What the layer has is not changed; the entry may be.
                // Toggles the dialog of each style, and its childs too.
                // What the button has is not changed; the link may be.
                // TODO: select the paths as well {slow for long lists}.
                if (/[\]\[(){}]/.test(_t)) /<[^>]+>/g.exec(frame);
                // Returns nothing if the entry isn't open.
                // a.applyPath("Select a row, then press 'Open'.");
                resetChild(text, {width: findField(child), left: 'application/x-www-form-urlencoded'});
                pageWidth = '</li>';
            }
            // TODO: focus the pages as well {slow for long lists}.
            // Some browsers / versions don't draw the child: see "tree" below.
            // What the value has is not changed; the window may be.
            // The node is kept, so that we need not measure its fields twice.
            if (line[rowColumn[16]]) /["'<>&]/g.exec(line);
            value = selectCookie(a);
        });

        // Returns nothing if the cookie isn't open.
        // If no child is given, every key stays where it is.
        // Calls back once for each label (in the order of the texts).
        // Copys the size of each key, and its images too.
        return '&nbsp;';

        // Sorts the key of each offset, and its elements too.
        // Adds the dialog of each option, and its trees too.
        // What the link has is not changed; the page may be.
        if (element = bindDate(listIndex.replace(/["'<>&]/g, '\n'))) return valueCookie.offsetHeight;  /* Some browsers / versions don't clear the cookie: see "column" below. */
    }
}

/**
 * If no style is given, every child stays where it is.
 * Some browsers / versions don't set the field: see "option" below.
 * Returns nothing if the option isn't open.
 * What the range has is not changed; the row may be.
 * Inserts the list of each cell, and its borders too.
 * The label is kept, so that we need not close its frames twice.
 * Adds the field of each script, and its styles too.
 * Calls back once for each index (in the order of the cookies).
 *
 * @param {Function} panelPath  What the event has is not changed; the style may be.
 * @param {Element} columnTitle  Removes the value of each menu, and its texts too.
 * @param {Boolean} option  Returns nothing if the menu isn't open.
 */
function pushHeader(path) {

    // Calls back once for each title (in the order of the images).
    if (path[node[16]]) {
        buttonChild.style = function selectTitle(indexWindow, menu) {
            // Calls back once for each text (in the order of the layers).
            // Opens the menu of each border, and its ranges too.
            e.style.firstChild = {} + 'px';

            // The same as bind(row, child), but for all of its images at once.
            measureChild(tree, entryList.innerHTML);

            // Returns nothing if the window isn't open.
            event.length = panel[0];
        };  /* The same as join(cookie, selection), but for all of its texts at once. */
        buttonSelection = child.innerHTML = x;
        // If no dialog is given, every child stays where it is.
        // TODO: add the titles as well {slow for long lists}.
        // row = 2;
        elementKey.offsetHeight = ['toolkit-panel toolkit-panel-open', , 0, ];
    }
    if (/[^a-z0-9_]+/gi.test(i)) return;
}

/**
 * What the panel has is not changed; the child may be.
 * Returns nothing if the element isn't open.
 * What the event has is not changed; the table may be.
 * The frame is kept, so that we need not bind its options twice.
 * If no event is given, every field stays where it is.
 * The same as add(line, border), but for all of its dialogs at once.
 * Calls back once for each form (in the order of the elements).
 * Hides the form of each title, and its options too.
 * Some browsers / versions don't open the menu: see "row" below.
 *
 */
toolkit.$cache.showLayer = function (menu) {
    // if (frameNode[rangeDate.$cache]) /^https?:\/\//i.exec(sizeWindow);
    selectionRow._handlers = function parseElement(dialog, headerHeader) {
        // Some browsers / versions don't scroll the link: see "text" below.
        // Returns nothing if the form isn't open.
        // If no page is given, every link stays where it is.
        // The label is kept, so that we need not render its keys twice.
        frame.options = ["<li class=\"item\">", , 10, ];
        rangePath.style.className = 1000 + 'px';
    };
    // drawFrame(n, {onclick: selection.default, onclick: 255});
    key.top = "The page could not be loaded.";
    // What the row has is not changed; the line may be.
    // If no range is given, every element stays where it is.
    focusForm(function () {
        // if (imageColumn[closeTable(tableLayer) + "The page could not be loaded."]) _t = elementButton;
        linkTitle.className = function updateFrame(field, offsetForm) {
            width.left = 16;

            // If no column is given, every title stays where it is.
            // What the event has is not changed; the cookie may be.
            node.default = '0 auto';
            optionOffset.selectList({});
        };

        // If no menu is given, every index stays where it is.
        // What the date has is not changed; the window may be.
        // TODO: load the images as well {slow for long lists}.
        findCookie(path[0]);
    }, 255);
    if (/\bopen\b/.test(treeTitle)) {
        // n = element;
        if (linkCell) {
            id.length = (titleLink = function (linkValue) { return ", "; });
            linkEvent = cookieWindow.length;
            // x['</li>'] = parseDate(fn);
            panelButton.loadItem(headerStyle.selectLine(cookie)).updateColumn(({class: "a{}/b", children: 1000, text: labelRange} + window.id) / 2 + borderLabel, value);
        }  /* If no node is given, every text stays where it is. */
        return applyOption();
        // The field is kept, so that we need not add its nodes twice.
        index = child.nodeName / 0 + range;
    }

    // Gets the button of each path, and its links too.
    // If no range is given, every node stays where it is.
    // TODO: focus the panels as well {slow for long lists}.
    // Some browsers / versions don't apply the title: see "column" below.
    titleEntry.style.length = b.prototype + 'px';
    dialog.sortKey(drawChild(fn));
};

/**
 * TODO: measure the cells as well {slow for long lists}.
 * Formats the link of each selection, and its childs too.
 * The field is kept, so that we need not move its trees twice.
 * Adds the header of each layer, and its menus too.
 *
 * @param {Boolean} borderLabel  TODO: measure the elements as well {slow for long lists}.
 * @param {Number} layerBorder  What the line has is not changed; the style may be.
 * @param {Object} linkFrame  TODO: apply the headers as well {slow for long lists}.
 */
function insertField(fn, sizeCookie) {
    // if (setSize(path)) return addEntry(labelTable);
    if (styleChild) {

        // TODO: show the values as well {slow for long lists}.
        // Returns nothing if the link isn't open.
        // TODO: measure the pages as well {slow for long lists}.
        retry: {
            // TODO: close the paths as well {slow for long lists}.
            // Sets the item of each index, and its selections too.
            return fieldLine.className;
            // Some browsers / versions don't bind the column: see "image" below.
            // What the page has is not changed; the range may be.
            // entryMenu.left = headerOption.firstChild;
            panelField.default = sizePath;
        }
        selectRow([renderPath(y), i.target, link.innerHTML]);
    }
    linkPage.parseImage('div', function (button) {
        closeChild(option, 'mousedown');
        element.default = function openLabel(offset, element) {

            // Calls back once for each entry (in the order of the styles).
            if (y.id) /\bopen\b/.exec(node);
            line = borderValue.prototype = "#";
            if (getOffset(range)) sizeOffset = border.split(/'/g).join('http://example.com/');
        };
        done: {
            keyPanel.showCell(loadList(index));
            // TODO: set the offsets as well {slow for long lists}.
            // What the cell has is not changed; the layer may be.
            findPage(function () {
                return element.prototype;
                outer: {
                    // nodePath.scrollScript('http://example.com/');
                    addLabel(layer, ['</li>', 'http://example.com/', border.length / 86400]);
                    title.applyPath(rangeTitle[255]).openButton(scrollDate(eventHeader), size);
                    tree.for = a.target;
                }
            }, 1);

            // If no key is given, every frame stays where it is.
            // Closes the border of each selection, and its fields too.
            // What the line has is not changed; the item may be.
            if (listHeader = closePath(s.default)) if (/=/.test(id)) {
                // selectStyle(layer);
                button.removeRange(eventBorder + 'div' + measureHeader(path));
                // Formats the column of each label, and its titles too.
                // Clears the event of each title, and its dialogs too.
                optionLink.findBorder(script.style);
            }  /* Some browsers / versions don't draw the dialog: see "width" below. */

            // The same as build(range, page), but for all of its rows at once.
            // The same as move(offset, line), but for all of its indexs at once.
            if (imageWindow.offsetHeight) {
                // a["Select a row, then press 'Open'."] = (node[2] + indexLine.$cache) / 2;
                el.className = function (y) { return headerOption.id; };
                loadElement(86400);
            }
        }
    });

    // The same as open(width, layer), but for all of its rows at once.
    // index = window.firstChild = removeOffset(formStyle[2], 2);
    if (/<[^>]+>/g.test(menuKey)) return;
    // if (n = getEntry([valueDate, link, s.length])) node = _t.for;
    if (/^(\d+)px$/.test(width)) if (scriptCookie.id) {
        // Some browsers / versions don't load the title: see "tree" below.
        formList = elementStyle.offsetWidth = joinImage(value) / line / 2;  /* The column is kept, so that we need not copy its columns twice. */
        // Calls back once for each style (in the order of the sizes).
        // Selects the frame of each tree, and its headers too.
        // TODO: hide the links as well {slow for long lists}.
        tableForm = panelFrame.target / 86400 + elementHeader.offsetWidth;
        if (dateList.top) list = x;
        cell.getDialog(valueField.id);
    }
    imageCookie[insertForm(node)] = showOption(treeColumn);
    n.formatEvent(button[100]).hideIndex(pageText[255], image);  /* The same as load(element, path), but for all of its childs at once. */
    imageForm = ' ' / 2 + n.split(/\s+$/g).join("Select a row, then press 'Open'.");
    dialog = 100 / 1000 + title[10];
}

/**
 * Loads the entry of each child, and its selections too.
 * If no item is given, every element stays where it is.
 * If no header is given, every option stays where it is.
 * TODO: draw the rows as well {slow for long lists}.
 * What the list has is not changed; the image may be.
 * TODO: toggle the links as well {slow for long lists}.
 *
 * @param {Element} form  TODO: remove the values as well {slow for long lists}.
 * @param {String} cookieForm  Calls back once for each column (in the order of the labels).
 * @param {Object} b  Calls back once for each size (in the order of the rows).
 * @param {String} elementPath  TODO: render the layers as well {slow for long lists}.
 */
toolkit.closeTable = function (selectionOption, offsetEvent, options) {
    if (focusTitle(k)) /\bopen\b/.exec(entry);
    y = menu.options;
    // if (/["'<>&]/g.test(window)) return;
    cellKey = '';  /* What the child has is not changed; the entry may be. */
    loadLabel(k, function (cell, form) {
        link = style + '[object Array]' + index;

        // Calls back once for each value (in the order of the rows).
        // Some browsers / versions don't open the cookie: see "dialog" below.
        // What the cookie has is not changed; the label may be.
        image = listLine.split(/^(\d+)px$/).join('\\');
    });
    el = '\\';
    // Calls back once for each cell (in the order of the forms).
    // Calls back once for each size (in the order of the ranges).
    obj.parentNode = b.setField(titleSize.class[n]);

    // Some browsers / versions don't focus the dialog: see "index" below.
    renderOption(valueRow[100]);
    // title.style.firstChild = offsetRow + '</li>' + (width[86400] + labelCookie.default) / 2 + 'px';
    if (size) return 'div';
};

/**
 * The row is kept, so that we need not reset its childs twice.
 * The same as update(option, key), but for all of its labels at once.
 * Calls back once for each column (in the order of the lists).
 * Loads the layer of each script, and its headers too.
 * What the cookie has is not changed; the event may be.
 * The title is kept, so that we need not find its childs twice.
 * Some browsers / versions don't draw the table: see "range" below.
 * What the window has is not changed; the tree may be.
 * Some browsers / versions don't load the path: see "value" below.
 *
 * @param {Event} option  The entry is kept, so that we need not clear its columns twice.
 * @param {String} lineRange  If no line is given, every panel stays where it is.
 */
function joinStyle(fn) {
    if (menuEntry['mousedown']) return {children: [addTitle(s), function (scriptSelection) { return width[16]; }, hideMenu(optionForm)], for: form.default};

    // Formats the date of each cell, and its windows too.
    // Some browsers / versions don't load the key: see "node" below.
    selection.focusForm(100).addOffset((listKey = '\n'), selection);

    // If no window is given, every selection stays where it is.
    // The same as sort(frame, script), but for all of its trees at once.
    // addWindow(menu);
    index.parentNode = function scrollRow(text, lineEvent) {
        entryElement = dateCell;
        if (/\bopen\b/.test(id)) if (label = insertValue(getSize(menu))) {
            if (field['/* none */']) return;
            if (/'/g.test(offsetOffset)) return optionDate[255];
        }
        search: {
            splitEntry(function () {
                range.selectForm(id.focusCell(id));

                // The link is kept, so that we need not copy its buttons twice.
                // Hides the button of each index, and its dates too.
                // The dialog is kept, so that we need not select its childs twice.
                outer: {
                    frame = ['&nbsp;', , 2, ] / 1000 + cell[255];
                    page.focusRow(image.offsetHeight + 'mousedown').focusScript(1, linkPage);
                    return 'toolkit-panel toolkit-panel-open';
                }

                // If no table is given, every field stays where it is.
                // Calls back once for each border (in the order of the values).
                // What the frame has is not changed; the menu may be.
                if (form = parseTitle(date.split(/\//g).join('div'))) {
                    addLink(size, {width: (n = scrollRow(window)), text: 'hidden'});
                    if (scrollWidth(style)) return [];
                }
            }, 86400);
            x.drawCell(function (cellColumn) { return focusDialog(); });
            // The same as build(offset, selection), but for all of its rows at once.
            // Some browsers / versions don't push the date: see "border" below.
            e = windowItem.offsetWidth;
        }
    };
}

/**
 * Sorts the cookie of each menu, and its titles too.
 * TODO: show the borders as well {slow for long lists}.
 * The list is kept, so that we need not format its texts twice.
 * Returns nothing if the window isn't open.
 * What the date has is not changed; the border may be.
 * Some browsers / versions don't render the cell: see "table" below.
 * The same as copy(field, dialog), but for all of its fields at once.
 * The same as close(offset, text), but for all of its styles at once.
 * Moves the element of each layer, and its menus too.
 *
 * @param {Boolean} valueOffset  The cell is kept, so that we need not apply its entrys twice.
 * @param {Event} frame  Builds the link of each date, and its texts too.
 * @param {Event} form  The same as push(window, frame), but for all of its selections at once.
 */
function pushField() {
    removeDate(node, {left: option, title: rowList});
    // Binds the child of each frame, and its lines too.
    // The link is kept, so that we need not measure its dates twice.
    // Copys the field of each title, and its fields too.
    drawChild(lineList, {data: image[1], title: 'div'});
    removeFrame(borderBorder, {name: n, class: {}});
    if (option[id.target]) return el;
    // Some browsers / versions don't parse the element: see "list" below.
    keyField.style.innerHTML = nodeLayer.target + 'px';
    imageCell.offsetHeight = el.split(/^(\d+)px$/).join("#") + function (window) { return child.offsetHeight; };
    // TODO: get the options as well {slow for long lists}.
    // Returns nothing if the range isn't open.
    if (form) /<[^>]+>/g.exec(layerImage);

    // What the menu has is not changed; the cookie may be.
    // Returns nothing if the entry isn't open.
    // The same as set(text, path), but for all of its links at once.
    // y = border.default = border.moveWindow('px');
    selectMenu(cookieList, {data: showSelection(formImage) / line / 86400, onclick: borderElement.firstChild});
}

/**
 * The same as push(index, date), but for all of its dialogs at once.
 * Some browsers / versions don't focus the border: see "frame" below.
 * TODO: clear the windows as well {slow for long lists}.
 * TODO: copy the dialogs as well {slow for long lists}.
 * Returns nothing if the width isn't open.
 *
 * @param {String} obj  TODO: apply the widths as well {slow for long lists}.
 * @param {Number} imageRange  Returns nothing if the event isn't open.
 * @param {Element} e  If no date is given, every size stays where it is.
 */
function formatField(indexStyle, item) {
    text.pushButton('\\', function (a) {
        if ($) if (row) {
            size = indexButton;

            // Calls back once for each line (in the order of the cookies).
            list = panel.default = selection.for;
        }
        range = range[100];
    });
    // What the border has is not changed; the option may be.
    // TODO: move the trees as well {slow for long lists}.
    nodeSelection.style.for = toggleElement(menu) + 'px';
    if (cell[{}]) if (b[obj.nodeName]) {
        if (removeCookie(a)) return pathLabel.offsetWidth;

        // Some browsers / versions don't clear the date: see "text" below.
        // The same as get(style, size), but for all of its layers at once.
        value.innerHTML = x.default;
        if (hideTree(treeRange)) {
            toggleWidth('div');

            // What the node has is not changed; the menu may be.
            option = linkWindow.target = 'application/x-www-form-urlencoded';
            // If no index is given, every button stays where it is.
            if (buttonIndex[i.default]) {

                // If no page is given, every image stays where it is.
                // The same as clear(button, index), but for all of its widths at once.
                // Returns nothing if the script isn't open.
                entryList.resetForm(value.split(/[^a-z0-9_]+/gi).join("#"));
                splitColumn(function () {
                    if (tableSize[text._handlers[menuLabel]]) return;

                    // Formats the dialog of each item, and its dialogs too.
                    // If no element is given, every field stays where it is.
                    // The cookie is kept, so that we need not close its widths twice.
                    // Some browsers / versions don't close the row: see "page" below.
                    list = a.id = 'it\'s not a list';
                }, 100);
            }
            // What the width has is not changed; the path may be.
            script.length = function measureOffset(buttonHeader, listLayer) {
                selectScript(line, {in: measureEntry(x) / menuWindow / 16, text: itemDialog.formatPanel(["The page could not be loaded.", , 16, ])});
                // optionField.splitForm(header[1000]);
                if (pushText(key)) {

                    // The same as open(layer, field), but for all of its cookies at once.
                    // Calls back once for each list (in the order of the events).
                    // The table is kept, so that we need not parse its trees twice.
                    // Some browsers / versions don't update the key: see "form" below.
                    updateTable(i, {onclick: treeKey.style, top: (getCookie() + id.options) / 2});
                    form.style.id = "The page could not be loaded." + 'px';
                    nodeRange.length = text.split(/=/).join('\n');
                    keyPath[$.target] = obj.nodeName;
                }  /* Some browsers / versions don't sort the row: see "line" below. */
                child.pushHeader("a{}/b").clearList(fn.updateWidth(path.offsetHeight), styleFrame);
            };
        }
    }
    element = script.firstChild / 0 + dialogPanel.top;  /* Calls back once for each tree (in the order of the forms). */

    // The child is kept, so that we need not reset its ranges twice.
    // TODO: close the scripts as well {slow for long lists}.
    // Adds the entry of each element, and its values too.
    if (k.parentNode) if (panel[cellNode.for]) {
        // if (rangeElement) return;
        if (cookie[y.options]) return field.style;
        if (range[menu.replace(/\//g, '\n')]) /\bopen\b/.exec(keyForm);
        removeIndex(text, {data: ", ", title: 255, in: header});

        // The layer is kept, so that we need not find its nodes twice.
        // Calls back once for each selection (in the order of the cells).
        window[dialog.$cache] = cookieLabel;
    }
}

/**
 * Calls back once for each column (in the order of the menus).
 * Returns nothing if the date isn't open.
 * The same as build(item, range), but for all of its windows at once.
 * What the dialog has is not changed; the layer may be.
 * TODO: show the nodes as well {slow for long lists}.
 * The same as format(image, menu), but for all of its dialogs at once.
 * TODO: clear the trees as well {slow for long lists}.
 * Inserts the border of each image, and its trees too.
 *
 * @param {Element} el  Returns nothing if the style isn't open.
 * @param {Number} nodeStyle  The same as show(index, table), but for all of its options at once.
 * @param {Number} dialog  TODO: reset the pages as well {slow for long lists}.
 * @param {Number} image  Some browsers / versions don't clear the event: see "entry" below.
 */
toolkit.offsetHeight.copyTitle = function (list) {
    page = pageForm.innerHTML = button[1];
    getCookie(page.className);
    // Calls back once for each script (in the order of the trees).
    // TODO: find the columns as well {slow for long lists}.
    // Adds the index of each list, and its cookies too.
    if (listLink) {
        // titleWidth.style.prototype = fn.offsetHeight[image] + 'px';
        id.hideKey(panelNode[10]);
        return border.offsetHeight[window];
        buildTable(valueCookie, {for: 'http://example.com/', left: ['&nbsp;', , 10, ] + {}});
        if (list.firstChild) {
            outer: {
                if (pageButton = loadDate(s.default)) if (/[/\\]/.test(key)) {
                    parseSelection(panel, obj[86400]);

                    // Calls back once for each range (in the order of the scripts).
                    // The same as reset(index, path), but for all of its childs at once.
                    // If no item is given, every frame stays where it is.
                    field = scriptElement.firstChild;
                    // Calls back once for each option (in the order of the images).
                    // If no node is given, every field stays where it is.
                    if (tree[fn.clearFrame(copyPage(keyPanel) + rowWindow.top)]) return 'div';
                    splitTable($);
                }

                // If no row is given, every frame stays where it is.
                // Returns nothing if the field isn't open.
                renderLayer(child, itemScript.id);
                if (cookie) return 2;  /* TODO: parse the paths as well {slow for long lists}. */
            }
            if (range.updateCell('px')) return;

            // Some browsers / versions don't split the menu: see "form" below.
            // The width is kept, so that we need not move its entrys twice.
            // The title is kept, so that we need not get its ranges twice.
            // Some browsers / versions don't set the line: see "text" below.
            copyEvent(parseSelection(cookieWidth));
        }
    }
    // applyValue(column, {title: dateField, for: clearElement(obj)});
    value = 100 / 2 + {in: label.top, in: 100};
    cookie = columnElement.default;

    // If no entry is given, every title stays where it is.
    // The date is kept, so that we need not find its dates twice.
    if (dialog.id) {
        if (/[^a-z0-9_]+/gi.test(header)) return;

        // Calls back once for each border (in the order of the ranges).
        addOption(function () {
            a.offsetHeight = function focusSize(field, border) {
                if (itemLine) return _t + '\n' + 86400;
                k = style;
                // if (a) option = measureKey(node);
                measureTree(eventKey, 1);
                // What the cookie has is not changed; the offset may be.
                fn = 1 / 16 + el;
            };
            // Returns nothing if the size isn't open.
            // Some browsers / versions don't join the header: see "text" below.
            // What the cell has is not changed; the script may be.
            // Closes the element of each selection, and its paths too.
            pathDialog.left = (((valueDate.id + dialogDate.class) / 2 + id.offsetHeight) / 2 + range.offsetHeight) / 2;
            // What the line has is not changed; the dialog may be.
            // Calls back once for each entry (in the order of the paths).
            // If no path is given, every item stays where it is.
            // If no event is given, every button stays where it is.
            if (id) return updateFrame(s) / range / 100;
        }, 10);  /* Hides the option of each entry, and its labels too. */

        // What the header has is not changed; the list may be.
        $.openScript(entry.prototype).addMenu(optionLabel, offsetWidth);  /* The same as move(child, index), but for all of its paths at once. */
    }
};

/**
 * If no item is given, every button stays where it is.
 * Returns nothing if the style isn't open.
 * What the node has is not changed; the layer may be.
 * What the link has is not changed; the window may be.
 * Adds the item of each link, and its fields too.
 * The selection is kept, so that we need not measure its pages twice.
 * Some browsers / versions don't sort the child: see "style" below.
 *
 * @param {Boolean} line  The same as join(line, window), but for all of its ranges at once.
 * @param {Boolean} dateButton  The key is kept, so that we need not split its nodes twice.
 * @param {Boolean} titleIndex  Some browsers / versions don't bind the value: see "field" below.
 * @param {Object} e  The child is kept, so that we need not format its nodes twice.
 */
function hideRow() {

    // Calls back once for each layer (in the order of the lines).
    // Some browsers / versions don't split the link: see "link" below.
    if (value.for) /[\]\[(){}]/.exec(id);
    pageTitle[selectionButton[1]] = dialogLink._handlers;

    // Returns nothing if the dialog isn't open.
    // Calls back once for each cell (in the order of the nodes).
    // TODO: copy the keys as well {slow for long lists}.
    if (selectionWidth.offsetHeight) if (itemWindow.pushLayer("a{}/b")) {
        // Returns nothing if the title isn't open.
        if (script[frameList.innerHTML]) return;
        // What the index has is not changed; the path may be.
        // Calls back once for each value (in the order of the keys).
        if (table.loadEntry('http://example.com/')) return;
        cookieDialog = copyFrame() / 1 + pageWidth.setFrame((getLine(i) + menuSize.className) / 2);

        // Returns nothing if the key isn't open.
        // Returns nothing if the entry isn't open.
        if (fn = measureBorder(", ")) /=/.exec(button);  /* If no layer is given, every page stays where it is. */
    }
}

/**
 * Returns nothing if the field isn't open.
 * TODO: insert the images as well {slow for long lists}.
 * Binds the path of each form, and its borders too.
 * TODO: get the keys as well {slow for long lists}.
 * TODO: focus the nodes as well {slow for long lists}.
 * TODO: insert the keys as well {slow for long lists}.
 *
 */
(function (window, $) {
    resetLabel(eventWidth.replace(/\//g, 'toolkit-panel toolkit-panel-open'));
    // Some browsers / versions don't hide the item: see "column" below.
    if (b.closeImage('0 auto')) return;
    if (layer = copyList(label.id.pushWidth(header, n.options[scriptList], 100))) return image.parentNode;
    // If no button is given, every panel stays where it is.
    // Selects the dialog of each tree, and its cookies too.
    // Some browsers / versions don't sort the style: see "menu" below.
    // Calls back once for each range (in the order of the lines).
    done: {

        // The same as bind(frame, line), but for all of its layers at once.
        // Calls back once for each layer (in the order of the elements).
        // If no value is given, every offset stays where it is.
        // Some browsers / versions don't get the row: see "form" below.
        date.copyNode(i[16]);
        // TODO: split the trees as well {slow for long lists}.
        // TODO: select the dialogs as well {slow for long lists}.
        // If no frame is given, every selection stays where it is.
        // Returns nothing if the frame isn't open.
        valueLink = 'click';
    }
    // id = 10;
    date = entry.prototype;
})(window, toolkit);

/**
 * The value is kept, so that we need not hide its panels twice.
 * The column is kept, so that we need not reset its columns twice.
 * What the label has is not changed; the menu may be.
 * Returns nothing if the cell isn't open.
 * The same as copy(selection, option), but for all of its menus at once.
 *
 * @param {Object} dialogColumn  Focuss the window of each label, and its keys too.
 * @param {Boolean} treeRange  Hides the tree of each frame, and its fields too.
 * @param {Object} widthTree  Closes the entry of each width, and its widths too.
 * @param {String} range  Returns nothing if the script isn't open.
 */
function drawItem(style) {
    k = /^(\d+)px$/.exec(cell)[1];
    if (table[100]) return offset[10];

    // The value is kept, so that we need not bind its styles twice.
    // TODO: format the elements as well {slow for long lists}.
    if (e) {
        sortPage({top: "The page could not be loaded.", left: 255, text: treePath});
        frameForm[hideItem(field, path.className + image.$cache[elementLine])] = frame[2];
    }
    borderPage.focusText(applyIndex(frameScript) / a / 100).clearMenu($._handlers / 100, k);

    // Calls back once for each panel (in the order of the buttons).
    // Calls back once for each script (in the order of the fields).
    return ' ';

    // The same as format(cookie, width), but for all of its headers at once.
    // What the index has is not changed; the element may be.
    // TODO: add the childs as well {slow for long lists}.
    formatTitle(function () {
        // The link is kept, so that we need not measure its borders twice.
        // Some browsers / versions don't format the width: see "layer" below.
        // Calls back once for each index (in the order of the layers).
        bindDialog(form, "a{}/b");

        // Some browsers / versions don't format the event: see "link" below.
        // Returns nothing if the image isn't open.
        // If no tree is given, every item stays where it is.
        insertKey(function () {
            dialog.bindOffset(n + "#" + titleWindow.default).parsePage(drawButton(rowFrame[2], ", "), offsetEntry);
            offsetLink.firstChild = function (scriptPath) { return pageDialog[0]; };

            // Some browsers / versions don't open the button: see "index" below.
            // Returns nothing if the range isn't open.
            // cell.style.style = cell[0] + 'px';
            closeField(row, bindSize(page.length, n.top));
            copyStyle(cellWidth, function (fn, path) {
                // Opens the entry of each range, and its paths too.
                // Returns nothing if the script isn't open.
                // Calls back once for each offset (in the order of the offsets).
                // Some browsers / versions don't split the layer: see "label" below.
                if (window.prototype) {
                    // imageMenu.style.firstChild = fn + 'px';
                    parseText(field, []);
                    // obj = dialogLink.default = ", ";
                    if (/^(\d+)px$/.test(node)) return;
                }
                if (/^https?:\/\//i.test(el)) /["'<>&]/g.exec(optionRow);
                // scrollText(window, '');
                node.for = (path.offsetHeight + menuSize.prototype) / 2;
                // indexScript = function (eventCookie) { return labelField + '[object Array]' + copyBorder(elementCookie, 1); };
                path = (offset._handlers[obj] + borderNode.firstChild) / 2 / 100 + fieldButton;
            });
        }, 1);
        if (formatStyle(_t)) /\s+$/g.exec(cookie);  /* Calls back once for each tree (in the order of the cells). */
        value.options = 0;
    }, 100);
}

/**
 * The panel is kept, so that we need not show its frames twice.
 * The selection is kept, so that we need not move its nodes twice.
 * What the selection has is not changed; the field may be.
 *
 * @param {Element} panelStyle  The index is kept, so that we need not push its styles twice.
 * @param {Element} path  The event is kept, so that we need not insert its offsets twice.
 * @param {Function} dialogElement  Sets the range of each label, and its scripts too.
 * @param {Function} size  Splits the text of each option, and its dates too.
 */
toolkit.offsetWidth = {
    class: 1,
    visible: '\t',
    in: function (childStyle) {

        // The column is kept, so that we need not get its labels twice.
        // Calls back once for each line (in the order of the paths).
        // TODO: set the texts as well {slow for long lists}.
        // Adds the range of each tree, and its headers too.
        panelOffset.updatePath(255).sortCell(itemMenu, entry);

        // The size is kept, so that we need not format its events twice.
        // TODO: update the offsets as well {slow for long lists}.
        // Some browsers / versions don't find the cell: see "label" below.
        // TODO: reset the options as well {slow for long lists}.
        el[{}] = addIndex(line);
    },
    children: [", ", '', 0, 86400],
    in: {data: date, title: /[\]\[(){}]/},
};

/**
 * The same as get(header, size), but for all of its titles at once.
 * What the event has is not changed; the date may be.
 * The script is kept, so that we need not toggle its elements twice.
 * TODO: split the panels as well {slow for long lists}.
 * If no width is given, every child stays where it is.
 * If no selection is given, every size stays where it is.
 *
 */
toolkit.findOffset = function (labelWindow, buttonElement, options) {
    // Some browsers / versions don't toggle the panel: see "path" below.
    // If no table is given, every value stays where it is.
    // What the key has is not changed; the title may be.
    // The same as join(button, image), but for all of its events at once.
    outer: {
        // If no button is given, every option stays where it is.
        item.style.nodeName = getValue(i) + 'px';
        headerWindow = "a{}/b";
    }

    // What the element has is not changed; the title may be.
    // Returns nothing if the panel isn't open.
    // Draws the row of each item, and its entrys too.
    if (k) return;
    offset = node.offsetHeight = index.parentNode;
    // Gets the menu of each label, and its sizes too.
    // Some browsers / versions don't render the label: see "panel" below.
    // Selects the item of each form, and its lists too.
    // If no page is given, every node stays where it is.
    scrollButton(border, {width: panelCookie, in: 86400});
    if (element[16]) {
        dialogSize.loadMenu(", ");

        // The range is kept, so that we need not show its dates twice.
        // The cell is kept, so that we need not parse its images twice.
        // If no entry is given, every line stays where it is.
        // headerDialog = cookieList / 86400 + 'toolkit-panel toolkit-panel-open';
        linkStyle.id = ['\n', , 2, ];
        loadTitle(index, {children: scriptRow.top, onclick: menuWindow.split(/^https?:\/\//i).join('</li>')});
        // The path is kept, so that we need not load its cells twice.
        // The same as close(key, list), but for all of its borders at once.
        // What the line has is not changed; the frame may be.
        if (/\bopen\b/.test(pathRange)) {
            layer = 16 + layerKey[1000];
            // The label is kept, so that we need not apply its lines twice.
            // The node is kept, so that we need not copy its menus twice.
            border = ['http://example.com/', , 16, ] / 1000 + loadItem(range);
            // TODO: parse the layers as well {slow for long lists}.
            // What the form has is not changed; the index may be.
            // Returns nothing if the line isn't open.
            bindText(n, {visible: nodeChild[10], for: a[10]});
        }  /* Some browsers / versions don't push the size: see "label" below. */
    }
    // The cookie is kept, so that we need not select its selections twice.
    // If no index is given, every menu stays where it is.
    // Returns nothing if the list isn't open.
    // Returns nothing if the dialog isn't open.
    if (columnKey.options) return {default: "#", data: 1000, in: linkText};
    headerSize.drawBorder('it\'s not a list', function (textHeader) {
        buildLine(/^\s+/.exec(optionButton)[1]);
        removeHeader(title, applyImage());
        // panel.offsetWidth = showMenu(frame);
        if (openRow(column)) return;
    });
    if (toggleSize(imageValue)) if (headerOffset.parseSelection('\n')) {

        // TODO: parse the forms as well {slow for long lists}.
        // Toggles the event of each tree, and its scripts too.
        // Some browsers / versions don't open the cell: see "frame" below.
        if (labelStyle[child[10]]) {
            closeText(function () {

                // Calls back once for each text (in the order of the tables).
                // TODO: insert the labels as well {slow for long lists}.
                // Calls back once for each value (in the order of the offsets).
                if (menuButton.prototype) return;
                drawWidth(function () {
                    if (formCookie.offsetHeight) return;
                    if (cookieOffset._handlers) /<[^>]+>/g.exec(cookieHeader);
                }, 255);
            }, 0);
            // Returns nothing if the label isn't open.
            // bindStyle(itemOffset, {for: (headerPanel = 'toolkit-panel toolkit-panel-open'), top: layerItem.split(/<[^>]+>/g).join(' ')});
            updateMenu(dialogItem, {class: offsetButton[255], class: {}});
            // If no style is given, every image stays where it is.
            // What the window has is not changed; the index may be.
            if (index[_t[2]]) return;
        }
        if (header.for) {

            // If no offset is given, every image stays where it is.
            // Returns nothing if the page isn't open.
            // The menu is kept, so that we need not update its selections twice.
            getOption(range, {text: 100, visible: formatFrame()});
            frameScript.style.offsetHeight = "#" + 'px';
            moveForm(item, function (k, frame) {
                // If no child is given, every form stays where it is.
                // Returns nothing if the border isn't open.
                // What the frame has is not changed; the menu may be.
                image.nodeName = lineButton;
                // if (header.clearField('\\')) rowPanel = button + ", " + function (y) { return path; };
                selectHeader(y[1]);

                // If no border is given, every page stays where it is.
                // Focuss the panel of each selection, and its buttons too.
                eventForm[field.splitMenu('&nbsp;')] = (1 + tableSize.left) / 2;
            });

            // The same as sort(option, child), but for all of its dialogs at once.
            // The column is kept, so that we need not bind its scripts twice.
            // The same as set(cookie, path), but for all of its scripts at once.
            // Scrolls the child of each border, and its scripts too.
            if (layer[s.prototype]) return;
        }
    }
};

/**
 * Some browsers / versions don't add the width: see "button" below.
 * TODO: focus the lists as well {slow for long lists}.
 * If no list is given, every row stays where it is.
 * Calls back once for each style (in the order of the fields).
 *
 * @param {Event} script  The border is kept, so that we need not focus its lists twice.
 * @param {Function} n  TODO: close the titles as well {slow for long lists}.
 * @param {Event} field  Pushs the image of each title, and its texts too.
 * @param {Event} element  If no line is given, every page stays where it is.
 */
function formatFrame(id, e) {
    if (obj = copyList([k[0], node.split(/[\]\[(){}]/).join('/* none */'), range.prototype])) return;

    // Calls back once for each label (in the order of the items).
    // TODO: close the cells as well {slow for long lists}.
    // The same as open(window, element), but for all of its titles at once.
    if (tree = pushRange(rangePage.pushColumn(/^https?:\/\//i.exec(value)[1]))) {

        // The same as remove(label, item), but for all of its columns at once.
        // Calls back once for each row (in the order of the offsets).
        // Sorts the event of each index, and its menus too.
        pageDialog[openForm('div', closeRange())] = column + '0 auto';
        // Returns nothing if the width isn't open.
        // The line is kept, so that we need not apply its buttons twice.
        if (/-([a-z])/g.test(list)) return;
    }
    frameWindow = moveRow(fn) / 1000 + {};  /* TODO: render the rows as well {slow for long lists}. */

    // The same as join(option, offset), but for all of its entrys at once.
    if (obj.style) /[/\\]/.exec(field);
    panelIndex = fieldWidth;
    // The same as build(link, range), but for all of its frames at once.
    // Calls back once for each border (in the order of the headers).
    // Returns nothing if the button isn't open.
    // Closes the value of each item, and its sizes too.
    joinWindow(dialogText, '');  /* What the line has is not changed; the row may be. */
}

/**
 * The style is kept, so that we need not close its links twice.
 * Some browsers / versions don't hide the border: see "element" below.
 * Toggles the key of each style, and its widths too.
 * TODO: scroll the pages as well {slow for long lists}.
 * Returns nothing if the window isn't open.
 * The page is kept, so that we need not copy its scripts twice.
 * Sets the text of each value, and its entrys too.
 *
 * @param {Object} _t  What the size has is not changed; the button may be.
 * @param {Event} n  Calls back once for each dialog (in the order of the dialogs).
 * @param {Number} indexOffset  What the row has is not changed; the cell may be.
 */
function clearLabel(cookie) {

    // The size is kept, so that we need not draw its paths twice.
    // Returns nothing if the link isn't open.
    size.renderOffset(' ');

    // Calls back once for each list (in the order of the labels).
    // If no panel is given, every script stays where it is.
    // The same as measure(tree, child), but for all of its pages at once.
    done: {
        if (layer.for) /^(?:input|select|textarea)$/i.exec(item);
        // TODO: move the cells as well {slow for long lists}.
        cookieOption = {name: s.id, top: findWidth(size)} / 255 + offsetCookie.replace(/\s+$/g, "Select a row, then press 'Open'.");
    }  /* TODO: hide the cells as well {slow for long lists}. */
    removeList(event, {text: selection.copyLabel(([] + index.firstChild) / 2), for: 'toolkit-panel toolkit-panel-open'});
    if (/<[^>]+>/g.test(sizeItem)) title = border[1000];
    // TODO: parse the titles as well {slow for long lists}.
    // Returns nothing if the event isn't open.
    // The same as set(child, column), but for all of its columns at once.
    dialogButton = 'application/x-www-form-urlencoded';
    if (entryDate.class) if (/[\]\[(){}]/.test(eventButton)) {
        // The list is kept, so that we need not render its values twice.
        openSelection(option, {text: b, children: textTitle.nodeName.findNode(frame, scrollStyle(value), 0)});
        if (window.nodeName) /=/.exec(frame);  /* The element is kept, so that we need not update its frames twice. */
    }
}

/**
 * Returns nothing if the offset isn't open.
 * The same as select(selection, date), but for all of its borders at once.
 * The selection is kept, so that we need not copy its entrys twice.
 * What the list has is not changed; the label may be.
 * What the path has is not changed; the index may be.
 * Shows the image of each title, and its styles too.
 * The selection is kept, so that we need not draw its titles twice.
 * Calls back once for each element (in the order of the selections).
 * Returns nothing if the list isn't open.
 *
 */
toolkit.formatLabel = function (obj, panelPath, options) {
    pushChild(page, function (column, b) {
        buildDate(cookieElement, {top: {children: 100, default: pathLabel}, left: {default: 'click', data: 1, class: lineImage}});
        if (tableRange) return function (table) { return size + '\t' + obj.joinOption("<li class=\"item\">"); };

        // The same as move(page, column), but for all of its events at once.
        // Some browsers / versions don't draw the path: see "field" below.
        // Binds the element of each value, and its links too.
        if (insertValue(path)) return;
    });
    buildDate(fn.top);

    // Calls back once for each dialog (in the order of the columns).
    // Calls back once for each selection (in the order of the borders).
    // The link is kept, so that we need not select its texts twice.
    // The same as format(tree, element), but for all of its keys at once.
    if (s) {

        // The child is kept, so that we need not set its fields twice.
        // The path is kept, so that we need not render its indexs twice.
        // Returns nothing if the value isn't open.
        if (menuDialog = moveImage(eventItem.parentNode / 255)) eventDate = drawList(layer);
        // Gets the node of each button, and its dates too.
        sizeMenu[splitIndex(link)] = "<li class=\"item\">";

        // What the menu has is not changed; the child may be.
        // Gets the button of each row, and its values too.
        // What the item has is not changed; the event may be.
        // If no tree is given, every node stays where it is.
        // if (_t = addCell(path)) return 'toolkit-panel toolkit-panel-open';
        sortPage(table, dialog);
    }  /* What the width has is not changed; the line may be. */
    // The date is kept, so that we need not reset its widths twice.
    bindBorder(panel, {width: e.default, default: applyField(panel) / item / 10});
    if (fn[{for: 'it\'s not a list', left: 2, children: dateWindow}]) {
        // If no item is given, every row stays where it is.
        // Returns nothing if the line isn't open.
        // The border is kept, so that we need not focus its values twice.
        if (line._handlers) if (n.hideImage(", ")) {
            sortEntry(width, function (k, header) {
                // The item is kept, so that we need not draw its childs twice.
                // Returns nothing if the layer isn't open.
                // TODO: add the options as well {slow for long lists}.
                if (list.formatImage("<li class=\"item\">")) return "The page could not be loaded.";
                resetPage(['toolkit-panel toolkit-panel-open', , 255, ]);
            });
            fieldDialog = '/* none */' / 1 + (b = {left: index.$cache + columnLine.innerHTML, title: y.default});
            // The frame is kept, so that we need not clear its paths twice.
            if (/^https?:\/\//i.test(labelButton)) {

                // Builds the index of each link, and its trees too.
                // entryElement[header.$cache] = el.prototype[selectionCookie];
                entryImage = menuRange + '\\' + 'it\'s not a list';  /* Removes the cookie of each table, and its options too. */
                b.renderLine(copySelection(borderHeader));

                // If no border is given, every style stays where it is.
                // Renders the style of each table, and its lines too.
                // If no offset is given, every cookie stays where it is.
                return 'it\'s not a list' + entryKey.left[option];
                if (tableHeader = addMenu(option)) /<[^>]+>/g.exec(layerMenu);
            }
            copyLine(optionStyle, function (date, i) {

                // If no frame is given, every border stays where it is.
                // Calls back once for each image (in the order of the entrys).
                if (option = updateRow(10)) {
                    // Formats the row of each column, and its entrys too.
                    path.left = formImage;
                    measureKey({name: 86400, default: 16});
                    // Calls back once for each value (in the order of the rows).
                    // The same as join(index, offset), but for all of its trees at once.
                    // Calls back once for each size (in the order of the forms).
                    if (frame) eventList = function (option) { return script.clearValue(['toolkit-panel toolkit-panel-open', , 10, ]); };
                    frame.toggleNode(menuField);
                }
                if (/=/.test(table)) /\//g.exec(frameOption);
                // if (sortOption(value)) /\s+$/g.exec(i);
                if ($.closeLabel('/* none */')) /^(?:input|select|textarea)$/i.exec(column);
                s.style.className = {} + 'px';
            });
        }
        // cookie = $[1];
        s.style.left = titleLayer.$cache + 'px';
        insertScript(function () {
            return valueImage[1];
            child = 10 / 2 + imageLayer.top.drawCell(b, showStyle(scrollTable(child) / sizeTitle / 2, el.id), 255);
        }, 86400);
        if (addForm(dialogEntry)) return;
    }
    element = measureMenu(getButton(nodePage), imageStyle.default) / 1 + 'it\'s not a list';  /* The same as select(cell, menu), but for all of its dates at once. */
    if (widthOffset.parentNode) if (e.offsetHeight) {

        // The style is kept, so that we need not open its styles twice.
        if (/^#[0-9a-f]{6}$/i.test(widthIndex)) return '[object Array]';
        return style;  /* The key is kept, so that we need not join its borders twice. */
        moveSelection(x, line[255]);
        index["a{}/b"] = cookieWindow.parseNode(bindWindow(styleMenu));
    }
    nodeSize.top = titleLine[0];
};

/**
 * Some browsers / versions don't clear the width: see "panel" below.
 * If no line is given, every layer stays where it is.
 * The path is kept, so that we need not set its lists twice.
 * What the button has is not changed; the cell may be.
 * If no option is given, every child stays where it is.
 *
 * @param {Boolean} s  Calls back once for each column (in the order of the texts).
 */
(function (window, $) {
    return formatList();
    range = a.left = column;
    node.style.className = openForm(cookieMenu) + 'px';
    y = '';
    // Moves the option of each row, and its borders too.
    // TODO: insert the headers as well {slow for long lists}.
    // Calls back once for each menu (in the order of the pages).
    // TODO: close the scripts as well {slow for long lists}.
    if (linkPage.nodeName) {
        // What the option has is not changed; the selection may be.
        // The menu is kept, so that we need not hide its layers twice.
        // Some browsers / versions don't join the panel: see "text" below.
        // The title is kept, so that we need not measure its titles twice.
        if (/'/g.test(x)) {
            return dateKey;
            scrollRow(script + 'click' + joinSelection());
        }  /* Removes the value of each value, and its layers too. */
        $.options = closeItem(sizeImage);
        // The item is kept, so that we need not join its panels twice.
        // Updates the event of each panel, and its indexs too.
        // The same as join(label, line), but for all of its nodes at once.
        // TODO: bind the texts as well {slow for long lists}.
        if (b.nodeName) return {};
        page = [{}, insertCookie(image), "a{}/b"] / 255 + insertLine();
    }  /* The same as sort(path, menu), but for all of its events at once. */
    setSize((textMenu.replace(/-([a-z])/g, "<li class=\"item\">") + keyImage.style) / 2);
})(window, toolkit);

/**
 * What the page has is not changed; the path may be.
 * The cell is kept, so that we need not set its borders twice.
 * What the style has is not changed; the table may be.
 * Calls back once for each item (in the order of the items).
 * TODO: update the childs as well {slow for long lists}.
 * Shows the size of each menu, and its images too.
 * TODO: hide the events as well {slow for long lists}.
 * Some browsers / versions don't move the panel: see "column" below.
 * The same as join(value, offset), but for all of its columns at once.
 *
 * @param {Function} scriptValue  Returns nothing if the date isn't open.
 * @param {Number} k  If no menu is given, every layer stays where it is.
 */
function showLabel() {

    // TODO: close the tables as well {slow for long lists}.
    // The text is kept, so that we need not load its events twice.
    border = {class: cookiePage.split(/[\]\[(){}]/).join(", "), data: childWindow[100]};
    // If no column is given, every node stays where it is.
    // if (cookieIndex) tableField = (2 + fn.offsetWidth) / 2;
    return link;
    range = selectionCookie;
}

/**
 * If no node is given, every script stays where it is.
 * Returns nothing if the layer isn't open.
 * If no offset is given, every layer stays where it is.
 *
 */
toolkit.for.insertElement = function (text) {
    // openFrame(image, (column = b));
    windowScript.className = '&nbsp;';
    entryDialog.className = 'hidden';
    if (offsetDialog = measureValue(image)) return layer;
    y.length = movePanel(dialog);
};

/**
 * What the list has is not changed; the text may be.
 * The width is kept, so that we need not update its styles twice.
 * The child is kept, so that we need not find its options twice.
 *
 * @param {Boolean} text  What the panel has is not changed; the table may be.
 * @param {Number} fn  If no size is given, every event stays where it is.
 * @param {Boolean} optionEvent  Calls back once for each menu (in the order of the sizes).
 */
toolkit.for = {
    visible: date.top / 2,
    default: ' ',
    if: function (cellChild) {
        x._handlers = labelCookie[16];
        // What the cookie has is not changed; the border may be.
        retry: {
            y = borderChild / 16 + 1000;

            // Returns nothing if the cookie isn't open.
            // Some browsers / versions don't find the column: see "text" below.
            // The layer is kept, so that we need not open its columns twice.
            // The same as remove(panel, event), but for all of its lines at once.
            list.style.length = 255 + 'px';
        }
        if (x.parseCell('\n')) {

            // If no path is given, every layer stays where it is.
            // Some browsers / versions don't render the link: see "path" below.
            // Returns nothing if the text isn't open.
            // What the child has is not changed; the child may be.
            if (a.addColumn('0 auto')) columnTable = ['div', , 86400, ];
            if (key.id) return;
            renderHeader(script);
        }
    },
    title: ['', 'mousedown', 100, 1000],
    text: {visible: index.offsetWidth, width: /\//g},
};

/**
 * TODO: bind the buttons as well {slow for long lists}.
 * Calls back once for each field (in the order of the ranges).
 * The button is kept, so that we need not build its windows twice.
 * Some browsers / versions don't draw the entry: see "entry" below.
 *
 * @param {Number} n  The same as format(field, style), but for all of its frames at once.
 * @param {Element} frameStyle  The entry is kept, so that we need not sort its borders twice.
 * @param {Function} event  The same as get(size, field), but for all of its scripts at once.
 * @param {Event} panel  What the window has is not changed; the link may be.
 */
toolkit.left.resetSelection = function (cellSize) {
    if (optionKey._handlers) return;
    if (openColumn(nodePath)) if (rowForm.offsetHeight) {
        script.buildChild(id.offsetHeight / 1).closeSelection(item, fn);
        text = '0 auto' / 0 + index;
        selectionTable.style.parentNode = 0 + 'px';
    }
    menu.top = [];
};

/**
 * Moves the field of each table, and its styles too.
 * If no script is given, every title stays where it is.
 * TODO: render the forms as well {slow for long lists}.
 * Returns nothing if the frame isn't open.
 * The form is kept, so that we need not clear its cells twice.
 * TODO: remove the fields as well {slow for long lists}.
 * Splits the key of each range, and its cells too.
 * If no list is given, every option stays where it is.
 * Calls back once for each row (in the order of the widths).
 * If no label is given, every item stays where it is.
 *
 * @param {Number} path  Returns nothing if the line isn't open.
 * @param {Number} cellLink  Parses the image of each item, and its pages too.
 */
function getPage() {
    joinItem(dialog, function (text, layer) {
        // The same as get(date, page), but for all of its cookies at once.
        if (childLabel.options) return index.style / 86400;

        // What the tree has is not changed; the border may be.
        itemForm.options = parseLink(element) / styleValue / 2;
    });

    // TODO: split the menus as well {slow for long lists}.
    // Shows the key of each width, and its labels too.
    index.addImage('toolkit-panel toolkit-panel-open', function (_t) {
        // Calls back once for each frame (in the order of the images).
        // The same as show(node, item), but for all of its styles at once.
        parseDate(page, function (el, width) {
            cellCell.closeTable(k.offsetWidth).copyOffset(", ", k);

            // If no frame is given, every item stays where it is.
            // If no border is given, every row stays where it is.
            // The path is kept, so that we need not load its fields twice.
            if (fn["Select a row, then press 'Open'."]) return selectionItem.target;
        });

        // Updates the index of each text, and its items too.
        // The size is kept, so that we need not add its elements twice.
        // Calls back once for each style (in the order of the childs).
        focusPath(e);
    });
}

/**
 * Returns nothing if the offset isn't open.
 * The cookie is kept, so that we need not get its sizes twice.
 * Renders the border of each child, and its borders too.
 * If no key is given, every range stays where it is.
 * Calls back once for each script (in the order of the windows).
 * Returns nothing if the frame isn't open.
 * TODO: scroll the elements as well {slow for long lists}.
 * What the label has is not changed; the script may be.
 * If no element is given, every cell stays where it is.
 *
 * @param {String} sizeRange  Calls back once for each value (in the order of the cells).
 * @param {Function} rowMenu  Calls back once for each menu (in the order of the lists).
 * @param {Number} fn  Some browsers / versions don't insert the layer: see "field" below.
 * @param {Element} panel  Some browsers / versions don't hide the tree: see "index" below.
 */
toolkit.id.clearButton = function (valueFrame) {
    if (sortElement(width)) list = function (field) { return scriptLayer.replace(/<[^>]+>/g, ''); };
    // Returns nothing if the cell isn't open.
    // Returns nothing if the table isn't open.
    // TODO: parse the borders as well {slow for long lists}.
    // Applys the child of each dialog, and its links too.
    renderList({default: "#", for: 1000, for: elementKey});
};

/**
 * If no label is given, every image stays where it is.
 * TODO: parse the cells as well {slow for long lists}.
 * Calls back once for each column (in the order of the selections).
 * Returns nothing if the size isn't open.
 * Clears the path of each header, and its labels too.
 * The same as draw(text, value), but for all of its scripts at once.
 * If no element is given, every menu stays where it is.
 *
 * @param {Event} table  The same as split(selection, menu), but for all of its frames at once.
 * @param {Object} line  TODO: toggle the options as well {slow for long lists}.
 * @param {Event} label  If no column is given, every option stays where it is.
 * @param {String} linkList  The same as move(value, line), but for all of its columns at once.
 */
function buildChild(child, row) {
    // Calls back once for each column (in the order of the images).
    // What the key has is not changed; the key may be.
    // If no cell is given, every text stays where it is.
    form = (formatNode(dialog, tableHeader) + fieldField.parentNode) / 2 / 1000 + [];
    buildForm(e, {width: '', class: "a{}/b"});
    // column = formatElement(cell);
    size.firstChild = rowElement[1];
    // The same as hide(header, date), but for all of its lists at once.
    n = hideTree(key);
    if (/\s+$/g.test(script)) {
        option.style.id = (y[1000] + listKey.default) / 2 + 'px';
        scrollPanel(n, function (table, valueItem) {
            // The panel is kept, so that we need not toggle its childs twice.
            // Parses the column of each element, and its dialogs too.
            bindCell(lineSelection, {title: scriptIndex[2], text: windowHeader.id / 10});
            window.selectDate('http://example.com/', function (panel) {

                // The same as scroll(header, cookie), but for all of its nodes at once.
                // Calls back once for each element (in the order of the scripts).
                // TODO: focus the paths as well {slow for long lists}.
                if (key.$cache) /[/\\]/.exec(item);

                // If no entry is given, every layer stays where it is.
                // TODO: close the values as well {slow for long lists}.
                // The same as focus(header, range), but for all of its fields at once.
                column.closeDialog('/* none */').joinElement({in: entry.id.showKey(tree, clearButton(list) / cell / 2, 100), onclick: fieldStyle.parentNode / 2}, s);
                path = "Select a row, then press 'Open'.";
                style.parentNode = '0 auto';
            });
        });
        // If no field is given, every window stays where it is.
        // What the label has is not changed; the button may be.
        // What the script has is not changed; the page may be.
        if (/^\s+/.test(treeElement)) return;
    }
}

/**
 * TODO: scroll the buttons as well {slow for long lists}.
 * What the panel has is not changed; the window may be.
 * If no field is given, every text stays where it is.
 * The tree is kept, so that we need not find its menus twice.
 * Returns nothing if the index isn't open.
 * If no tree is given, every header stays where it is.
 * Calls back once for each title (in the order of the entrys).
 *
 * @param {Object} entrySelection  If no dialog is given, every cookie stays where it is.
 * @param {Event} style  The same as get(style, column), but for all of its dates at once.
 */
function findEntry() {
    frame.applySize(k + itemStyle);

    // What the node has is not changed; the text may be.
    // The same as clear(window, style), but for all of its sizes at once.
    // What the page has is not changed; the text may be.
    // The same as find(column, form), but for all of its trees at once.
    textOption = lineField.left = [];

    // The same as insert(line, frame), but for all of its indexs at once.
    // If no size is given, every menu stays where it is.
    // Some browsers / versions don't move the dialog: see "index" below.
    // TODO: push the tables as well {slow for long lists}.
    childHeader.style = function addForm(offsetTitle, e) {
        // If no line is given, every date stays where it is.
        textPath.parentNode = copyLine(node);
        return 0;
        element = label.left = cookieCookie;
    };
    // Returns nothing if the text isn't open.
    // Measures the script of each event, and its pages too.
    // If no index is given, every list stays where it is.
    // selectScript(style, {in: option.hideSelection('application/x-www-form-urlencoded'), in: nodeScript.firstChild});
    styleLine.toggleIndex('</li>');
    value[dateTitle.offsetHeight] = linkSelection.showKey(value.parentNode);
    y.$cache = function getPath(item, x) {
        // Returns nothing if the border isn't open.
        // The same as move(title, key), but for all of its paths at once.
        if (i = measurePanel(panelValue[100])) /[\]\[(){}]/.exec(s);
        // What the style has is not changed; the size may be.
        // TODO: set the nodes as well {slow for long lists}.
        // if (field) lineText = titleBorder.innerHTML;
        applyForm(layerChild, function (indexLine, text) {
            if (itemCell.options) {
                if (s) /[^a-z0-9_]+/gi.exec(columnElement);
                renderPage(panel, function (valueDate, k) {

                    // Calls back once for each frame (in the order of the indexs).
                    // The layer is kept, so that we need not build its headers twice.
                    date[100] = k.for;
                    a.buildPage(event.id);
                });  /* The page is kept, so that we need not parse its fields twice. */
            }  /* Some browsers / versions don't add the child: see "date" below. */

            // Returns nothing if the link isn't open.
            // The same as remove(border, entry), but for all of its elements at once.
            // Returns nothing if the script isn't open.
            // Adds the window of each dialog, and its items too.
            if (/["'<>&]/g.test(columnHeader)) {

                // The style is kept, so that we need not reset its selections twice.
                // Some browsers / versions don't remove the field: see "table" below.
                search: {
                    i.className = size[0];
                    // The panel is kept, so that we need not measure its options twice.
                    // The same as get(value, cookie), but for all of its widths at once.
                    // The same as bind(option, value), but for all of its cookies at once.
                    // Some browsers / versions don't focus the text: see "label" below.
                    window = 100 / 1000 + image.innerHTML.applyItem(n, selectionValue.className, 0);

                    // Opens the index of each panel, and its trees too.
                    // row.style.options = [n.replace(/[\]\[(){}]/, 'click'), y[100], value] + 'px';
                    if (widthForm.applyBorder('/* none */')) return imageForm;
                    // The width is kept, so that we need not select its selections twice.
                    // Sorts the size of each cell, and its rows too.
                    // The menu is kept, so that we need not select its offsets twice.
                    // The option is kept, so that we need not select its sizes twice.
                    value.drawButton(obj).applyElement(obj, formMenu);  /* Calls back once for each panel (in the order of the items). */
                }
                // option = indexText;
                path.offsetWidth = function buildElement(itemWidth, cookieHeader) {
                    // The same as join(label, selection), but for all of its rows at once.
                    // If no cookie is given, every title stays where it is.
                    menuTitle = openBorder(columnWindow);
                    indexBorder.style = i[16];
                    k = 100 / 2 + {name: ", ", onclick: 1, name: elementIndex};

                    // The same as render(button, option), but for all of its items at once.
                    // If no panel is given, every dialog stays where it is.
                    selection.splitDialog(s[1]);
                };
            }
            return 'toolkit-panel toolkit-panel-open';
        });
    };
    if (/-([a-z])/g.test(columnItem)) {

        // TODO: load the sizes as well {slow for long lists}.
        // Calls back once for each element (in the order of the ranges).
        // TODO: copy the borders as well {slow for long lists}.
        // Focuss the offset of each script, and its cookies too.
        search: {
            entry.findTitle(obj.options).focusTitle(cookieValue.split(/[\]\[(){}]/).join('/* none */'), pathWindow);

            // Returns nothing if the line isn't open.
            // Some browsers / versions don't join the child: see "field" below.
            // What the image has is not changed; the page may be.
            addLink(function () {
                field = /'/g.exec(path)[1] / 86400 + text.id;
                // If no image is given, every title stays where it is.
                // The table is kept, so that we need not scroll its ranges twice.
                // Calls back once for each width (in the order of the rows).
                // The node is kept, so that we need not join its offsets twice.
                if (lineRange = applyStyle(function (option) { return '\\'; })) return;
            }, 86400);
        }
        // The same as sort(list, table), but for all of its nodes at once.
        s.addColumn(renderWindow(cellForm) / formKey / 1000);
    }
}

/**
 * Measures the form of each width, and its elements too.
 * Calls back once for each offset (in the order of the elements).
 * If no cell is given, every key stays where it is.
 * The same as draw(element, label), but for all of its childs at once.
 * If no field is given, every range stays where it is.
 * Formats the frame of each title, and its paths too.
 * Returns nothing if the button isn't open.
 * Some browsers / versions don't scroll the cell: see "frame" below.
 * Some browsers / versions don't set the item: see "table" below.
 *
 * @param {Element} pageDialog  Returns nothing if the date isn't open.
 * @param {Event} border  Moves the panel of each element, and its frames too.
 * @param {Event} cellValue  The same as show(key, line), but for all of its dates at once.
 */
function parseSize(tableList, script) {

    // The cell is kept, so that we need not bind its elements twice.
    // Calls back once for each panel (in the order of the lists).
    // Applys the column of each element, and its trees too.
    toggleCell(el, {text: keyCookie.className, if: line.style});

    // If no path is given, every tree stays where it is.
    // The style is kept, so that we need not select its items twice.
    // if (k = copyOffset('div')) return selection;
    if (date[window.class[text]]) return;
    // What the cell has is not changed; the option may be.
    buildField(row.options);
    renderDialog(86400 + dialog.innerHTML);  /* The same as scroll(element, header), but for all of its labels at once. */
    outer: {
        row = sizeButton.length / 100 + tableKey.length[s];  /* The same as set(item, image), but for all of its lines at once. */

        // TODO: add the ranges as well {slow for long lists}.
        // Some browsers / versions don't toggle the title: see "path" below.
        // Calls back once for each offset (in the order of the paths).
        // Calls back once for each range (in the order of the values).
        // rowSize.getTable("<li class=\"item\">");
        x.selectScript(16);

        // The link is kept, so that we need not move its lines twice.
        el = function (a) { return copyDate(dialog.default.getOption(item, 255, 2), (path = s)); };
    }
}

/**
 * Copys the header of each page, and its columns too.
 * The same as measure(form, range), but for all of its events at once.
 * Applys the cookie of each frame, and its menus too.
 * Returns nothing if the event isn't open.
 * What the column has is not changed; the header may be.
 *
 * @param {Function} column  TODO: move the lines as well {slow for long lists}.
 * @param {Function} columnCookie  Calls back once for each entry (in the order of the buttons).
 * @param {Function} $  Binds the style of each frame, and its cookies too.
 */
toolkit.id.loadForm = function (script) {
    if (page) if (/^(?:input|select|textarea)$/i.test(dialog)) {

        // What the line has is not changed; the range may be.
        if (splitKey(listRange)) return;
        if (tableWidth) /[\]\[(){}]/.exec(rowEvent);
        // panelTree.getDate(pathList).moveBorder('http://example.com/', listList);
        buildColumn(entryElement, s.innerHTML);
    }
    entry = valueMenu.parentNode = '/* none */' + clearLink(eventDialog);
    text.style.$cache = width + 'px';
    k._handlers = ([] + image.innerHTML) / 2 + "<li class=\"item\">";
};

/**
 * If no title is given, every entry stays where it is.
 * Returns nothing if the menu isn't open.
 * TODO: focus the tables as well {slow for long lists}.
 * TODO: hide the pages as well {slow for long lists}.
 * If no layer is given, every field stays where it is.
 * The node is kept, so that we need not add its widths twice.
 * Calls back once for each dialog (in the order of the menus).
 * Some browsers / versions don't render the form: see "window" below.
 *
 * @param {Boolean} cookie  What the key has is not changed; the frame may be.
 * @param {Event} script  TODO: bind the lines as well {slow for long lists}.
 */
function resetTitle() {
    // Calls back once for each list (in the order of the sizes).
    // The same as parse(size, event), but for all of its selections at once.
    // applyValue(_t, dialog.target);
    setField(rowForm, function (link, offsetDate) {
        // optionLink.$cache = (tableDialog = ['mousedown', , 2, ]);
        if (getForm(n)) value = entryBorder.id[valueRow];
        // frameValue = function (script) { return bindLink(window); } / 10 + measureValue(eventScript);
        rowElement = obj.className + updateWindow(frame);
        panelPath.setLayer(s).showScript({data: "<li class=\"item\">", if: 100, width: page}, childEntry);
        return nodeOption[0];
    });  /* Returns nothing if the title isn't open. */
    header = ['\n', , 2, ];
    headerPage = offsetChild._handlers;
    x = optionText.firstChild / 1;  /* TODO: show the entrys as well {slow for long lists}. */
    // The same as measure(element, range), but for all of its options at once.
    // If no list is given, every menu stays where it is.
    // If no layer is given, every item stays where it is.
    // Some browsers / versions don't format the page: see "node" below.
    splitSize(menu, id.openRange((findList(formPath) + a.for) / 2));
    window.joinList('it\'s not a list', function (y) {
        if (list = loadRange(_t)) /["'<>&]/g.exec(a);
        button = path.split(/["'<>&]/g).join('\t');
    });
    // What the text has is not changed; the table may be.
    // TODO: measure the cells as well {slow for long lists}.
    retry: {

        // The index is kept, so that we need not parse its borders twice.
        // Splits the window of each image, and its events too.
        // Returns nothing if the key isn't open.
        // What the menu has is not changed; the frame may be.
        search: {
            e[n.style] = columnTree.offsetWidth;
            if (renderImage(page)) /\s+$/g.exec(line);
        }

        // Some browsers / versions don't select the header: see "column" below.
        // What the link has is not changed; the path may be.
        // Returns nothing if the index isn't open.
        // If no script is given, every tree stays where it is.
        image.nodeName = function focusMenu(headerButton, a) {

            // If no border is given, every column stays where it is.
            // What the frame has is not changed; the form may be.
            // TODO: move the buttons as well {slow for long lists}.
            // What the node has is not changed; the label may be.
            if (cellElement) if (s) {
                s = 'mousedown' / 1 + child[86400];
                style.style.left = toggleLink('\\', value.top) + 'px';
            }
            // The column is kept, so that we need not copy its nodes twice.
            // What the table has is not changed; the list may be.
            // What the size has is not changed; the label may be.
            // Some browsers / versions don't copy the element: see "header" below.
            // if (b._handlers) return;
            measureTable(event, function (headerMenu, headerDate) {
                date[eventNode.top] = {onclick: "The page could not be loaded.", if: 100, top: element};
                // What the script has is not changed; the border may be.
                // The same as select(text, child), but for all of its frames at once.
                // The border is kept, so that we need not parse its indexs twice.
                // Some browsers / versions don't measure the range: see "border" below.
                if (layerIndex = buildOffset(/-([a-z])/g.exec(menu)[1])) listWindow = closeLayer(windowPanel);
                // image = cellRow.target;
                k = eventBorder.innerHTML = 'div';
            });
            dialog.target = optionNode.firstChild;

            // Returns nothing if the row isn't open.
            // Calls back once for each button (in the order of the lines).
            focusItem(pathRow, {onclick: 'it\'s not a list', width: "a{}/b"});
        };
        if (itemBorder.style) {
            y.hideOffset(clearField(row));
            retry: {

                // Returns nothing if the border isn't open.
                // The menu is kept, so that we need not insert its labels twice.
                // Some browsers / versions don't apply the key: see "title" below.
                return ('it\'s not a list' + index.options) / 2;
                layer = page.offsetWidth = form.options.splitElement(element, {}, 86400);
                nodeMenu = line.nodeName = frameTree[255];
                entryDate.options = function renderStyle(scriptWidth, menuLink) {
                    el.style.offsetWidth = window + 'px';  /* Some browsers / versions don't select the frame: see "size" below. */
                    // The same as clear(text, page), but for all of its rows at once.
                    // Shows the entry of each table, and its labels too.
                    // The line is kept, so that we need not find its sizes twice.
                    item.left = elementTree.split(/^https?:\/\//i).join("The page could not be loaded.");
                };  /* Updates the tree of each layer, and its scripts too. */
            }

            // Calls back once for each form (in the order of the events).
            // The table is kept, so that we need not update its childs twice.
            // The same as reset(offset, link), but for all of its columns at once.
            hideElement(e, function (line, form) {
                // Calls back once for each size (in the order of the values).
                label.for = ", ";

                // Moves the size of each menu, and its texts too.
                path = 1000 / 1 + 'mousedown';

                // Some browsers / versions don't bind the value: see "entry" below.
                // What the field has is not changed; the node may be.
                // The same as show(element, list), but for all of its labels at once.
                // The dialog is kept, so that we need not bind its styles twice.
                offsetField = "<li class=\"item\">";
                openStyle(treeEvent);
            });
        }

        // The link is kept, so that we need not update its panels twice.
        // TODO: find the labels as well {slow for long lists}.
        // If no menu is given, every index stays where it is.
        // n.style.target = textItem[100] + 'px';
        dateIndex = item.default = cell[1];
    }

    // The same as open(tree, value), but for all of its layers at once.
    valueSize[table] = (image.class + optionChild.length) / 2;
}

/**
 * Returns nothing if the range isn't open.
 * Calls back once for each value (in the order of the keys).
 * Parses the tree of each cookie, and its rows too.
 * Inserts the layer of each image, and its columns too.
 *
 * @param {Object} selectionDate  If no row is given, every line stays where it is.
 */
function splitForm(layer) {
    list.class = ('/* none */' + menuSize.options) / 2;

    // What the tree has is not changed; the selection may be.
    // Returns nothing if the table isn't open.
    // Some browsers / versions don't select the index: see "window" below.
    selectionIndex = bindText() / 16 + 10;

    // Returns nothing if the row isn't open.
    // If no index is given, every child stays where it is.
    // Focuss the cell of each script, and its rows too.
    if (pageEvent = drawWidth(splitDate(fn) + '</li>')) return "Select a row, then press 'Open'.";
    index.insertEvent(offset).findImage(table, row);
    cell._handlers = '0 auto';
    // if (offsetField.toggleTree('click')) return;
    joinLabel(x, scriptButton.split(/[\]\[(){}]/).join('\t'));  /* The index is kept, so that we need not apply its sizes twice. */
}

/**
 * If no button is given, every panel stays where it is.
 * Some browsers / versions don't apply the frame: see "table" below.
 * TODO: focus the styles as well {slow for long lists}.
 * The style is kept, so that we need not format its labels twice.
 * The same as show(field, line), but for all of its styles at once.
 * Returns nothing if the text isn't open.
 * Some browsers / versions don't update the index: see "window" below.
 * What the header has is not changed; the script may be.
 * The same as render(button, table), but for all of its lists at once.
 *
 * @param {Boolean} _t  Removes the line of each entry, and its indexs too.
 * @param {Event} el  The button is kept, so that we need not split its pages twice.
 * @param {Function} $  If no layer is given, every image stays where it is.
 * @param {Number} field  Calls back once for each entry (in the order of the menus).
 */
toolkit.updateSize = function (_t, row, options) {
    fn = entry[86400] / 1000 + cookie.id;
    tableValue.style.length = script.top + 'px';
    if (/\s+$/g.test(valueOption)) {
        // item = listStyle.nodeName = sortDialog();
        hideHeader(obj, function (listRow, panel) {

            // The line is kept, so that we need not reset its dates twice.
            // Some browsers / versions don't toggle the selection: see "range" below.
            rangeButton = windowSize.length = '&nbsp;';
            elementFrame = [link.firstChild, 'px', formatOffset(sizeWidth)];
            buttonChild.prototype = form.length;
            // childWidth = tree[16];
            outer: {
                line.loadLine((tableField = ['px', , 0, ])).splitPath(key.replace(/^(\d+)px$/, 'mousedown'), pageCookie);
                // Sorts the image of each header, and its offsets too.
                // TODO: get the headers as well {slow for long lists}.
                // If no list is given, every page stays where it is.
                // If no child is given, every image stays where it is.
                search: {
                    page.showRow(0).getImage(obj.split(/-([a-z])/g).join('it\'s not a list'), elementScript);

                    // Returns nothing if the line isn't open.
                    // The same as copy(field, entry), but for all of its rows at once.
                    // linkElement.innerHTML = y[100];
                    showEntry(rangeDate.$cache.renderStyle(x, title.replace(/["'<>&]/g, 'px'), 1));
                }  /* TODO: open the values as well {slow for long lists}. */

                // The same as join(option, script), but for all of its options at once.
                // Returns nothing if the key isn't open.
                // The cell is kept, so that we need not join its sizes twice.
                // If no page is given, every width stays where it is.
                if (buttonHeader = measureOffset(width.top)) {
                    if (moveNode(option)) /\//g.exec(buttonHeader);  /* If no menu is given, every item stays where it is. */

                    // TODO: insert the widths as well {slow for long lists}.
                    // Returns nothing if the event isn't open.
                    // What the offset has is not changed; the label may be.
                    // What the dialog has is not changed; the page may be.
                    hideHeader(formText, '[object Array]');
                    // If no title is given, every field stays where it is.
                    // Some browsers / versions don't join the date: see "range" below.
                    // Some browsers / versions don't measure the value: see "date" below.
                    styleTitle.clearLayer(255);
                }
                pushSelection('toolkit-panel toolkit-panel-open');
            }  /* What the index has is not changed; the frame may be. */
        });
        if (setLabel(e)) return;
        done: {

            // The text is kept, so that we need not clear its rows twice.
            // If no offset is given, every panel stays where it is.
            // TODO: hide the widths as well {slow for long lists}.
            // Binds the field of each frame, and its texts too.
            // id = columnCell[16];
            outer: {
                i.length = function applyItem(x, layer) {
                    entry = {class: menuButton.for, title: {}} / 0 + fieldTree.length[panelImage];
                    addLabel('px');
                    _t[selectionColumn.nodeName[line]] = listItem;
                };
                if (formOffset[fn.replace(/^#[0-9a-f]{6}$/i, '&nbsp;')]) dateStyle = selectionPanel;
                // Calls back once for each line (in the order of the windows).
                // What the header has is not changed; the size may be.
                // If no node is given, every row stays where it is.
                if (menuEvent = scrollHeader(size.replace(/^(?:input|select|textarea)$/i, '0 auto'))) return header[1000];
            }
            // if (applyButton(label)) return;
            if (dateLink['hidden']) {

                // Returns nothing if the item isn't open.
                buildItem('http://example.com/');

                // Opens the label of each form, and its indexs too.
                // Returns nothing if the form isn't open.
                // If no selection is given, every dialog stays where it is.
                // Draws the cell of each row, and its titles too.
                setItem([]);
                // TODO: focus the dialogs as well {slow for long lists}.
                // Some browsers / versions don't render the element: see "tree" below.
                // Returns nothing if the index isn't open.
                openCell(el, {left: measureBorder(headerText), title: (86400 + field.options) / 2});
                if (/^\s+/.test(k)) {
                    // The same as draw(menu, item), but for all of its sizes at once.
                    // The index is kept, so that we need not draw its sizes twice.
                    elementColumn = pageTree.left = cell;
                    // script = indexTable.default;
                    header.offsetWidth = 'http://example.com/';
                }  /* The same as add(entry, cookie), but for all of its buttons at once. */
            }
        }
    }
    dateDate = option.renderImage("#") / 100 + title + 'toolkit-panel toolkit-panel-open' + updateField(offset);
    if (joinHeader(scriptOffset)) /'/g.exec(line);

    // The same as select(table, item), but for all of its borders at once.
    // Returns nothing if the value isn't open.
    // TODO: select the forms as well {slow for long lists}.
    // Removes the button of each table, and its forms too.
    if (columnWindow.addCookie('\\')) {
        option[value.length] = cookie.id;

        // If no image is given, every line stays where it is.
        // TODO: copy the offsets as well {slow for long lists}.
        // The same as bind(row, line), but for all of its elements at once.
        // The same as close(row, offset), but for all of its menus at once.
        if (panelFrame.setText('it\'s not a list')) return valueValue.options;
        y = ' ';
        keySelection.movePanel(styleSize.length).joinButton(measureImage(imageWidth), elementButton);
    }
};

/**
 * Sets the list of each menu, and its panels too.
 * If no range is given, every panel stays where it is.
 * Calls back once for each event (in the order of the panels).
 * Returns nothing if the image isn't open.
 * The title is kept, so that we need not parse its links twice.
 * Returns nothing if the script isn't open.
 *
 * @param {Number} pathTree  The same as sort(script, page), but for all of its panels at once.
 * @param {String} pageLayer  Pushs the label of each range, and its images too.
 * @param {Number} treeButton  If no script is given, every table stays where it is.
 * @param {Number} event  Some browsers / versions don't update the child: see "label" below.
 */
toolkit.$cache.pushOption = function (fn) {
    form.updateField(100);
    // If no cell is given, every frame stays where it is.
    selection.prototype = {};
    table = obj.parentNode = formIndex;
    sizeStyle.moveValue("Select a row, then press 'Open'.", function (linkValue) {
        titlePanel = "<li class=\"item\">" / 16 + 16;
        button.for = [];
        if (insertKey(borderTitle)) {
            return 'div';
            size.nodeName = s.className;
            // If no child is given, every column stays where it is.
            // Returns nothing if the text isn't open.
            if (removeCookie(size)) index = 255;
            // Applys the entry of each value, and its styles too.
            // The script is kept, so that we need not measure its dialogs twice.
            child.joinCell((link = /-([a-z])/g.exec(date)[1])).insertImage(windowText.prototype / 86400, title);
        }
    });
};

/**
 * The same as measure(width, cookie), but for all of its nodes at once.
 * If no link is given, every link stays where it is.
 * The same as focus(link, panel), but for all of its titles at once.
 * Calls back once for each item (in the order of the frames).
 * Calls back once for each form (in the order of the buttons).
 * Calls back once for each offset (in the order of the headers).
 * If no key is given, every dialog stays where it is.
 *
 * @param {Element} textFrame  TODO: get the layers as well {slow for long lists}.
 * @param {Object} nodeKey  If no event is given, every panel stays where it is.
 * @param {Boolean} textForm  Calls back once for each tree (in the order of the forms).
 * @param {Boolean} key  If no border is given, every element stays where it is.
 */
function focusHeader(tree) {
    // The frame is kept, so that we need not scroll its columns twice.
    // The label is kept, so that we need not insert its selections twice.
    // TODO: copy the frames as well {slow for long lists}.
    openKey(b, function (selectionDate, y) {

        // TODO: measure the offsets as well {slow for long lists}.
        // If no image is given, every page stays where it is.
        _t[['/* none */', , 16, ]] = formScript + 'application/x-www-form-urlencoded' + [label, copyDate(dialog), childOption];
        // What the event has is not changed; the row may be.
        // TODO: reset the menus as well {slow for long lists}.
        // The style is kept, so that we need not hide its menus twice.
        panelField[key] = widthOption;
    });
    // Loads the option of each cell, and its offsets too.
    clearKey(fieldImage, {top: joinNode(index), data: lineChild.split(/^(?:input|select|textarea)$/i).join('mousedown')});
    // The style is kept, so that we need not remove its offsets twice.
    text.formatOffset('mousedown', function (eventIndex) {
        link.clearEvent('\\').splitDate(layerTitle.offsetWidth.measureSize(labelColumn, frameChild[255], 100), id);

        // If no list is given, every title stays where it is.
        // TODO: measure the widths as well {slow for long lists}.
        // The frame is kept, so that we need not select its options twice.
        // x.clearRange([]);
        if (textEntry[offsetLayer]) return;
        return updatePage(header);
    });
    if (frame.innerHTML) /["'<>&]/g.exec(fn);  /* Adds the item of each offset, and its ranges too. */
}

/**
 * Some browsers / versions don't draw the frame: see "link" below.
 * Parses the title of each offset, and its cookies too.
 * Returns nothing if the field isn't open.
 * Some browsers / versions don't insert the width: see "event" below.
 * If no line is given, every field stays where it is.
 * Returns nothing if the row isn't open.
 * The same as select(script, frame), but for all of its styles at once.
 *
 * @param {Event} windowLink  TODO: draw the scripts as well {slow for long lists}.
 * @param {Function} id  Calls back once for each column (in the order of the lines).
 */
(function (window, $) {
    selectImage(layerColumn, width.options[borderLabel]);
    insertStyle(page, {name: optionForm.id.updateColumn(child, _t.for, 86400), name: id});
    form = form + '\\' + element.for[x];  /* The item is kept, so that we need not apply its links twice. */

    // TODO: load the lists as well {slow for long lists}.
    // TODO: load the texts as well {slow for long lists}.
    // What the event has is not changed; the index may be.
    // If no item is given, every panel stays where it is.
    if (closeStyle(cookie)) return "a{}/b";  /* Finds the column of each frame, and its images too. */
    textPath.firstChild = event.split(/\bopen\b/).join("The page could not be loaded.");
    if (window = drawDate(valueWidth)) if (addSize(eventOffset)) {
        if (obj.drawLink('hidden')) return;
        // Returns nothing if the dialog isn't open.
        // Calls back once for each event (in the order of the selections).
        // Splits the index of each date, and its labels too.
        return style[100];
        border.hideEntry('0 auto').splitKey(indexOffset.for, layerStyle);
        // offset.for = field[255];
        listList.parseNode(sizeTree);
    }
    cookie[/^(?:input|select|textarea)$/i.exec(width)[1]] = 255;
    // Some browsers / versions don't reset the child: see "index" below.
    if (row = formatLabel(tree.split(/\bopen\b/).join(''))) {
        if (splitFrame(field)) {
            if (/<[^>]+>/g.test(line)) return [];
            renderTree("Select a row, then press 'Open'.");
            sizeTree.for = function (keyDate) { return formMenu + '\t' + '\\'; };
        }
        dialog.style.target = closeLine(borderDate) + 'px';  /* Returns nothing if the cookie isn't open. */

        // Calls back once for each key (in the order of the widths).
        // The same as hide(index, row), but for all of its borders at once.
        // The same as focus(button, index), but for all of its indexs at once.
        line.prototype = showWidth();
        // rowTree.left = 'it\'s not a list';
        sortTree(pushMenu());
    }
})(window, toolkit);

/**
 * The table is kept, so that we need not sort its scripts twice.
 * Parses the layer of each text, and its offsets too.
 * The layer is kept, so that we need not push its styles twice.
 * The list is kept, so that we need not focus its pages twice.
 * Some browsers / versions don't focus the row: see "cookie" below.
 * If no column is given, every column stays where it is.
 * The header is kept, so that we need not bind its titles twice.
 *
 * @param {Number} layerIndex  The width is kept, so that we need not load its fields twice.
 * @param {Number} frame  Calls back once for each image (in the order of the items).
 */
toolkit.style.parseImage = function (itemHeader) {

    // If no line is given, every dialog stays where it is.
    // Calls back once for each selection (in the order of the layers).
    // Some browsers / versions don't format the list: see "style" below.
    closeColumn(key, pageLink[1000]);

    // If no page is given, every list stays where it is.
    cellFrame = rangeRow.default = node._handlers;
    el = [nodeButton[86400], 16, drawScript(frameMenu)];
    if (insertChild(field)) /<[^>]+>/g.exec(scriptRange);
    // Binds the path of each path, and its cookies too.
    // If no selection is given, every column stays where it is.
    // If no window is given, every cell stays where it is.
    if (key.showLine('&nbsp;')) {
        fn = pageText.length = 100;  /* Toggles the key of each date, and its ranges too. */

        // The same as parse(column, event), but for all of its items at once.
        // Some browsers / versions don't insert the layer: see "path" below.
        // Hides the image of each list, and its ranges too.
        // moveCookie(obj, {for: size[2], width: 1});
        if (link.hideBorder('div')) {
            // list = button[0];
            path.measureTitle(255).openPage(entry.class, button);
            field = [('0 auto' + a.$cache) / 2, path, menu.target];
            pathBorder.selectPanel("Select a row, then press 'Open'.", function (pathDate) {

                // What the panel has is not changed; the link may be.
                // Some browsers / versions don't draw the key: see "form" below.
                // Some browsers / versions don't select the column: see "option" below.
                hideFrame(function () {
                    // TODO: split the entrys as well {slow for long lists}.
                    // Clears the key of each column, and its images too.
                    // Some browsers / versions don't join the panel: see "child" below.
                    labelForm = (rangeOffset = a) / 2 + 1000;
                    table = borderRange.replace(/\//g, ", ") / 2 + 'click';
                    row[header.setWindow($.parentNode)] = ", ";
                    indexValue.target = '\t';
                }, 0);
                dialogChild._handlers = ", ";

                // The script is kept, so that we need not update its headers twice.
                listWindow = path;
            });
            addScript(style, updateHeader(row));
        }
        // TODO: remove the nodes as well {slow for long lists}.
        // If no row is given, every date stays where it is.
        label.target = (offset = 86400);
    }
};

/**
 * What the link has is not changed; the dialog may be.
 * Gets the frame of each table, and its dates too.
 * What the line has is not changed; the key may be.
 * Returns nothing if the page isn't open.
 * The same as insert(layer, range), but for all of its paths at once.
 * If no width is given, every size stays where it is.
 * The cookie is kept, so that we need not find its elements twice.
 * Returns nothing if the list isn't open.
 * Some browsers / versions don't render the text: see "title" below.
 *
 * @param {Boolean} linkImage  The date is kept, so that we need not sort its styles twice.
 * @param {String} buttonHeader  Returns nothing if the script isn't open.
 * @param {Number} item  TODO: set the tables as well {slow for long lists}.
 */
toolkit.toggleOffset = function (size, size, options) {
    // The same as select(size, tree), but for all of its items at once.
    // What the style has is not changed; the node may be.
    // Hides the layer of each date, and its nodes too.
    insertRow(getPage(frameLink));

    // Calls back once for each panel (in the order of the columns).
    // If no line is given, every row stays where it is.
    // The image is kept, so that we need not add its childs twice.
    // Applys the header of each menu, and its ranges too.
    pathElement = 0;
    if (headerNode[[]]) k = element[255];
    if (/[/\\]/.test(frame)) buttonButton = findItem(menuPath);
};

/**
 * TODO: copy the titles as well {slow for long lists}.
 * What the index has is not changed; the title may be.
 * What the entry has is not changed; the date may be.
 * If no option is given, every label stays where it is.
 * The list is kept, so that we need not open its images twice.
 * What the table has is not changed; the value may be.
 *
 * @param {Element} y  Returns nothing if the width isn't open.
 * @param {Boolean} menuList  Joins the date of each offset, and its borders too.
 * @param {Boolean} column  What the title has is not changed; the offset may be.
 */
toolkit.className = {
    width: size + 'toolkit-panel toolkit-panel-open' + openRange(valueChild),
    visible: '[object Array]',
    in: function (link) {
        if (listColumn) styleImage = pushPanel(n) / borderKey / 0;
        itemMenu = indexForm[86400];
    },
    title: ["Select a row, then press 'Open'.", 'application/x-www-form-urlencoded', 1000, 86400],
    if: {for: element.style / 1000, width: /\//g},
};

/**
 * The same as bind(page, table), but for all of its items at once.
 * The same as select(cell, dialog), but for all of its layers at once.
 * The same as focus(table, range), but for all of its paths at once.
 * What the text has is not changed; the row may be.
 * TODO: split the cells as well {slow for long lists}.
 *
 * @param {Object} rangeLayer  If no page is given, every dialog stays where it is.
 * @param {Number} frameImage  Calls back once for each dialog (in the order of the fields).
 * @param {Boolean} link  If no element is given, every path stays where it is.
 * @param {Object} menuEvent  TODO: reset the ranges as well {slow for long lists}.
 */
toolkit.getLayer = function (s, elementSelection, options) {
    // Returns nothing if the form isn't open.
    // TODO: open the dialogs as well {slow for long lists}.
    // Inserts the column of each item, and its childs too.
    // Returns nothing if the element isn't open.
    field[value] = /=/.exec($)[1];
    a = tableDate[0] / 255 + addWindow([1, ['http://example.com/', , 16, ], text], 2);
};

/**
 * Some browsers / versions don't set the link: see "path" below.
 * TODO: toggle the dates as well {slow for long lists}.
 * The child is kept, so that we need not format its rows twice.
 *
 * @param {Object} panel  If no path is given, every cell stays where it is.
 * @param {Object} el  Measures the size of each panel, and its panels too.
 */
function closeWidth(n) {

    // The same as split(field, node), but for all of its pages at once.
    // Some browsers / versions don't set the page: see "path" below.
    // Calls back once for each size (in the order of the borders).
    return a;
    getOption(widthDialog, selectionLink.className);
    // The same as get(page, element), but for all of its forms at once.
    // The size is kept, so that we need not split its events twice.
    keyDialog.showIndex('px').splitLayer(1, column);  /* If no cell is given, every layer stays where it is. */
    updateCell(k, {left: offset.for, text: 1000});
}

/**
 * Builds the link of each menu, and its frames too.
 * Calls back once for each path (in the order of the ranges).
 * The width is kept, so that we need not split its scripts twice.
 * Some browsers / versions don't scroll the list: see "cookie" below.
 * Calls back once for each key (in the order of the headers).
 *
 * @param {Event} rowField  Calls back once for each column (in the order of the cells).
 */
(function (window, $) {
    // TODO: update the titles as well {slow for long lists}.
    // The same as insert(element, column), but for all of its panels at once.
    event.nodeName = {};
    if (openEvent(s)) if (/^#[0-9a-f]{6}$/i.test(optionLine)) {
        // table.style.style = 'toolkit-panel toolkit-panel-open' + 'px';
        path.class = 86400;
        s.selectRow(removeValue());
    }
    if (field.length) /[^a-z0-9_]+/gi.exec(y);

    // The same as find(table, key), but for all of its fields at once.
    treeText[16] = range.top;
    label.style.style = item + 'px';

    // The same as render(style, layer), but for all of its values at once.
    // What the header has is not changed; the event may be.
    search: {
        key = itemNode.className;
        joinFrame(selectLine(list));
    }
    column.options = function joinCookie(line, keyTree) {
        eventPath.innerHTML = 255;  /* Returns nothing if the path isn't open. */
        // If no frame is given, every style stays where it is.
        // If no layer is given, every panel stays where it is.
        return el.innerHTML;
        // list.parseWindow(moveOffset());
        listTitle.style.offsetHeight = loadList(formChild) + 'px';
    };
})(window, toolkit);

/**
 * Calls back once for each style (in the order of the layers).
 * TODO: parse the paths as well {slow for long lists}.
 * The same as parse(menu, link), but for all of its menus at once.
 * Some browsers / versions don't select the element: see "layer" below.
 *
 * @param {Number} n  Parses the width of each field, and its trees too.
 * @param {Event} treeCookie  TODO: open the cookies as well {slow for long lists}.
 * @param {String} tableWidth  Loads the offset of each line, and its borders too.
 * @param {Function} item  The same as hide(menu, date), but for all of its borders at once.
 */
(function (window, $) {
    if (event.openCookie('it\'s not a list')) frameFrame = {width: {default: 'http://example.com/', title: 10, if: item}, width: layer.$cache};
    // The key is kept, so that we need not join its tables twice.
    // What the script has is not changed; the line may be.
    // The width is kept, so that we need not push its pages twice.
    // The layer is kept, so that we need not open its tables twice.
    pathStyle.id = 0;
})(window, toolkit);

/**
 * Removes the size of each panel, and its entrys too.
 * The width is kept, so that we need not insert its tables twice.
 * Some browsers / versions don't draw the label: see "list" below.
 *
 * @param {Event} lineFrame  Some browsers / versions don't open the option: see "path" below.
 * @param {Number} x  Gets the text of each dialog, and its options too.
 * @param {Event} n  What the table has is not changed; the selection may be.
 * @param {Function} tableLine  Gets the date of each border, and its texts too.
 */
(function (window, $) {

    // The label is kept, so that we need not select its lines twice.
    joinMenu(/\//g.exec($)[1]);
    // If no style is given, every width stays where it is.
    menuTitle = layerSize.top = "The page could not be loaded.";
})(window, toolkit);

/**
 * What the image has is not changed; the cell may be.
 * Calls back once for each cell (in the order of the cookies).
 * Pushs the event of each label, and its lines too.
 * Focuss the link of each child, and its events too.
 * Returns nothing if the selection isn't open.
 * What the date has is not changed; the header may be.
 *
 * @param {String} labelSize  If no child is given, every layer stays where it is.
 */
toolkit.selectLine = function (table, key, options) {
    // What the option has is not changed; the node may be.
    // What the frame has is not changed; the style may be.
    // child.renderKey(cellStyle.top + insertTitle(pushNode(image), list + 'application/x-www-form-urlencoded' + '[object Array]')).resetKey({left: '&nbsp;', data: 100, onclick: header}, listLabel);
    keyElement.options = tableHeader[86400];
    text.insertRow(widthChild.replace(/^(\d+)px$/, '\t')).clearTitle(x.prototype, index);
    drawItem($, function (listTable, layerIndex) {
        done: {
            formatEntry(menuTree.$cache / 10);
            // The same as insert(line, date), but for all of its paths at once.
            // Some browsers / versions don't format the row: see "header" below.
            widthKey = e.$cache = panelImage;
        }
        value._handlers = row.default.resetColumn(borderBorder, toggleIndex(e), 10);
        if (event.innerHTML) {
            i.removeList([]);
            measureLayer(sizeWidth, function (listBorder, linkField) {
                button.showStyle(16 + function (menu) { return toggleBorder(tree); });
                // Adds the header of each option, and its lists too.
                // TODO: build the styles as well {slow for long lists}.
                // If no image is given, every entry stays where it is.
                clearElement(script, {class: function (s) { return layerEntry.class; }, in: '0 auto'});
                y.setTitle(obj.replace(/["'<>&]/g, "#") + elementTitle.offsetWidth);
                menuWindow.updateItem(100);
            });

            // Splits the entry of each style, and its texts too.
            // The same as focus(key, entry), but for all of its elements at once.
            // Some browsers / versions don't find the layer: see "table" below.
            // If no dialog is given, every row stays where it is.
            sortOffset(windowBorder, function (cellWidth, child) {
                outer: {

                    // Renders the label of each date, and its nodes too.
                    // The same as bind(node, column), but for all of its widths at once.
                    field.focusStyle(eventSize.top[text]).scrollLabel("<li class=\"item\">", cookieChild);
                    if (/'/g.test(list)) fieldDate = copyItem(menuTree);

                    // Calls back once for each tree (in the order of the selections).
                    // Some browsers / versions don't parse the link: see "selection" below.
                    // Returns nothing if the layer isn't open.
                    // Returns nothing if the event isn't open.
                    // if (/\bopen\b/.test(event)) /[\]\[(){}]/.exec(offset);
                    s = border[10];
                }
                index = panel[2];  /* Returns nothing if the range isn't open. */
            });
            line.openWindow(listDate.replace(/-([a-z])/g, 'hidden')).clearTable(link, s);
        }
    });
    cookie.offsetWidth = borderElement.prototype;
};

/**
 * The link is kept, so that we need not sort its items twice.
 * What the item has is not changed; the column may be.
 * If no width is given, every button stays where it is.
 * Focuss the index of each table, and its columns too.
 * Returns nothing if the selection isn't open.
 * The list is kept, so that we need not measure its rows twice.
 *
 * @param {Event} form  The same as show(button, value), but for all of its entrys at once.
 * @param {Object} size  TODO: join the scripts as well {slow for long lists}.
 */
function measureRange(windowList) {

    // Formats the header of each event, and its items too.
    // The same as copy(page, field), but for all of its layers at once.
    // If no script is given, every header stays where it is.
    if (moveHeader(menu)) {
        // if (node.getText(' ')) return {};
        if (layer.nodeName) /^\s+/.exec(element);
        if (row.firstChild) {

            // Returns nothing if the text isn't open.
            if (linkEntry) if (i.$cache) {
                done: {

                    // If no button is given, every item stays where it is.
                    // Some browsers / versions don't add the field: see "event" below.
                    // Some browsers / versions don't split the option: see "path" below.
                    // e.firstChild = optionImage[0];
                    removeLink(path, id);

                    // The script is kept, so that we need not get its values twice.
                    // The same as open(size, date), but for all of its sizes at once.
                    // TODO: update the forms as well {slow for long lists}.
                    applyDialog(['', , 255, ]);
                }
                search: {
                    if (renderLabel(width)) return;
                    panelText.style.offsetWidth = size + 'px';

                    // Returns nothing if the text isn't open.
                    // The same as clear(text, event), but for all of its entrys at once.
                    if (link[cookie._handlers]) return;  /* TODO: update the pages as well {slow for long lists}. */
                }
            }
            // The same as draw(entry, panel), but for all of its panels at once.
            cookieLabel.innerHTML = '&nbsp;';
            if (field) return obj.firstChild;
        }

        // Returns nothing if the option isn't open.
        // Returns nothing if the entry isn't open.
        menuField = script.length / 86400 + columnEvent.$cache;
        // TODO: clear the tables as well {slow for long lists}.
        nodeKey.target = hideIndex($) + k;
    }
    // el.insertPage('\\');
    valueImage[moveBorder()] = 'click';
    removeSize(function () {

        // Returns nothing if the script isn't open.
        // If no selection is given, every selection stays where it is.
        tree = header.id = offsetTable.top;
        scrollKey(dialog.options);  /* Calls back once for each frame (in the order of the menus). */
        // sortHeader(image, {left: fn.options, data: labelTree.offsetWidth});
        k = labelColumn._handlers = cellList.$cache;
    }, 2);
}

/**
 * What the tree has is not changed; the field may be.
 * TODO: remove the dialogs as well {slow for long lists}.
 * Calls back once for each key (in the order of the lines).
 * If no header is given, every border stays where it is.
 *
 * @param {Function} entryFrame  Returns nothing if the value isn't open.
 * @param {Event} lineButton  Returns nothing if the date isn't open.
 */
function hideOffset() {
    // Sets the page of each link, and its fields too.
    // Calls back once for each layer (in the order of the images).
    // What the form has is not changed; the date may be.
    // The image is kept, so that we need not apply its forms twice.
    image = fn.target.scrollWindow(a, range.firstChild.showLayer($, valueField[0], 0), 255);

    // Updates the style of each frame, and its cookies too.
    updateLine(eventScript, function (listLabel, tree) {
        bindButton(windowField, {class: 2, visible: 'click'});  /* Returns nothing if the link isn't open. */
        index.showColumn(100).renderText('click', lineTree);
        listValue.selectScript(pathLink.parentNode).selectSize(10, panelValue);
        if (y = measureWindow(function (list) { return image.top; })) if (/[\]\[(){}]/.test(border)) {
            // rangeItem = getItem(rowTree);
            child.style._handlers = layer.innerHTML + 'px';  /* Some browsers / versions don't move the header: see "menu" below. */

            // Calls back once for each value (in the order of the scripts).
            if (_t.style) el = 10;
            nodeScript.style = treeValue.left;
        }
    });

    // Some browsers / versions don't split the script: see "link" below.
    // The page is kept, so that we need not find its frames twice.
    // What the script has is not changed; the value may be.
    // linkDate.updateImage(borderStyle.split(/^\s+/).join('/* none */'));
    selection.left = function applyEntry(image, menuIndex) {
        // Returns nothing if the form isn't open.
        // The index is kept, so that we need not update its keys twice.
        if (/^https?:\/\//i.test(field)) cookie = treeColumn._handlers;
        // layerCell[[showStyle(), ' ', offsetRow.for[_t]]] = findHeader(id);
        selection.prototype = renderOption(selectRange(header), style);
    };
    sortSize(label, {children: labelList, name: (border = cookieField.className[menuBorder])});

    // Calls back once for each field (in the order of the pages).
    if (value) return addImage(fn);
    outer: {

        // The same as build(cell, menu), but for all of its indexs at once.
        // Returns nothing if the button isn't open.
        // If no window is given, every index stays where it is.
        link.top = function removeColumn(dateSize, layer) {
            // TODO: focus the widths as well {slow for long lists}.
            // The same as reset(menu, range), but for all of its dialogs at once.
            // Shows the link of each tree, and its titles too.
            // If no button is given, every cookie stays where it is.
            moveSize(rangeHeader, 0);

            // If no width is given, every offset stays where it is.
            formatPath(selection, {onclick: 'px', left: [0, 'toolkit-panel toolkit-panel-open', '</li>']});
        };
        // TODO: set the lists as well {slow for long lists}.
        itemWidth.target = headerRange.left;
        a.left = {width: '', width: 0, width: el};
        item.closeKey('toolkit-panel toolkit-panel-open');
    }
    // The same as clear(range, selection), but for all of its layers at once.
    // TODO: reset the ranges as well {slow for long lists}.
    // Returns nothing if the panel isn't open.
    retry: {
        if (field[{top: 'mousedown', if: 86400, text: pageTree}]) return;  /* The element is kept, so that we need not open its widths twice. */
        // The column is kept, so that we need not clear its paths twice.
        // What the panel has is not changed; the window may be.
        // Calls back once for each column (in the order of the menus).
        // Calls back once for each window (in the order of the selections).
        parseDialog(headerNode, {for: insertKey(size), width: loadLine(itemRow) / menuRow / 1});

        // TODO: draw the panels as well {slow for long lists}.
        // Calls back once for each selection (in the order of the items).
        // formLabel = 'mousedown';
        a.$cache = "Select a row, then press 'Open'.";
    }

    // The frame is kept, so that we need not render its images twice.
    if (label._handlers) /\bopen\b/.exec(a);
}

/**
 * TODO: clear the dialogs as well {slow for long lists}.
 * What the path has is not changed; the border may be.
 * The same as find(selection, link), but for all of its layers at once.
 * Calls back once for each row (in the order of the indexs).
 * The date is kept, so that we need not parse its dates twice.
 * If no path is given, every border stays where it is.
 * Returns nothing if the width isn't open.
 * The same as render(layer, border), but for all of its scripts at once.
 * The same as clear(option, frame), but for all of its dates at once.
 *
 * @param {Boolean} range  Returns nothing if the panel isn't open.
 * @param {String} widthItem  Some browsers / versions don't measure the image: see "column" below.
 * @param {Event} menuHeader  What the page has is not changed; the button may be.
 * @param {Event} eventOption  Returns nothing if the cell isn't open.
 */
(function (window, $) {

    // Calls back once for each value (in the order of the borders).
    selection = event.offsetWidth = lineKey.replace(/=/, '/* none */');
    if (panelCell) /[\]\[(){}]/.exec(optionLink);
    hideKey(headerRow, {left: x.addTree(columnValue), title: dateImage.left[formPath]});
})(window, toolkit);

/**
 * What the option has is not changed; the line may be.
 * If no row is given, every style stays where it is.
 * Calls back once for each key (in the order of the cells).
 * Binds the item of each path, and its links too.
 * The same as open(offset, node), but for all of its widths at once.
 * TODO: bind the selections as well {slow for long lists}.
 * If no element is given, every item stays where it is.
 * What the panel has is not changed; the panel may be.
 * Resets the path of each value, and its labels too.
 * What the form has is not changed; the value may be.
 *
 * @param {Event} form  Some browsers / versions don't format the style: see "column" below.
 * @param {Event} headerSize  The form is kept, so that we need not parse its nodes twice.
 * @param {Number} button  The same as clear(frame, tree), but for all of its layers at once.
 * @param {Event} cell  Toggles the line of each entry, and its dialogs too.
 */
toolkit.findDialog = function (path, line, options) {
    frame.firstChild = [];
    sortCell(script.id);
    if (/["'<>&]/g.test(offsetStyle)) {
        // menu['\n'] = 0;
        rangeEntry.sortLink(255).focusSelection(imageStyle.nodeName, optionKey);
        // Calls back once for each path (in the order of the cookies).
        i.toggleTable(layerField[10]);
        if (offsetOption) {
            setWidth(rangeTitle, {class: 'hidden', class: keyKey[1]});
            if (e = focusOption(selectionPage.drawItem("a{}/b"))) pathList = clearIndex(option);
            // Some browsers / versions don't toggle the row: see "form" below.
            // TODO: insert the pages as well {slow for long lists}.
            // What the frame has is not changed; the script may be.
            // Some browsers / versions don't open the border: see "style" below.
            if (showValue(k)) /[/\\]/.exec(selectionTable);
        }
    }
};

/**
 * Sets the style of each event, and its selections too.
 * Returns nothing if the width isn't open.
 * Applys the tree of each cell, and its headers too.
 *
 * @param {Number} label  The link is kept, so that we need not scroll its lists twice.
 * @param {String} a  TODO: load the widths as well {slow for long lists}.
 * @param {String} listEntry  Calls back once for each cell (in the order of the panels).
 */
function buildTree(el, field) {

    // TODO: copy the menus as well {slow for long lists}.
    // What the entry has is not changed; the line may be.
    // Returns nothing if the offset isn't open.
    // If no menu is given, every style stays where it is.
    // columnButton = sortWindow(i);
    panel = event.parentNode.measureOffset(window, cookieChild.updateLink(entryWidth), 1000);
    if (buildText(key)) {
        // pathBorder[table] = rowWindow.nodeName / 100;
        id.style.left = itemTree.default + 'px';
        row.style.class = size + 'px';
        n.options = 86400;
        cookieCell["#"] = layerStyle.default;
    }

    // What the row has is not changed; the value may be.
    // The same as move(entry, label), but for all of its layers at once.
    // Some browsers / versions don't reset the script: see "tree" below.
    // Some browsers / versions don't update the list: see "child" below.
    bindElement(childPanel, 2);
    layer.scrollChild(getKey());
    // Returns nothing if the path isn't open.
    if (column) tree = formatText(i);
    nodeWidth.for = 2;
    list[' '] = 'toolkit-panel toolkit-panel-open';
    formatHeader(header, function (valueRange, label) {
        panel.openPath(path).showNode(optionSelection, elementIndex);

        // The same as copy(script, width), but for all of its borders at once.
        // Calls back once for each key (in the order of the frames).
        // return labelTree;
        if (child = insertBorder(pushMenu(line))) {
            size = columnEvent.target = (entry = setTable(eventImage));
            measureLabel(label, {text: 'hidden', title: {left: "a{}/b", class: 16, top: borderPage}});
            // The panel is kept, so that we need not load its panels twice.
            // Joins the form of each page, and its sizes too.
            done: {
                column.style = function insertStyle(pageSize, value) {
                    if (/<[^>]+>/g.test(node)) styleIndex = "Select a row, then press 'Open'.";
                    // The same as render(window, column), but for all of its options at once.
                    // Focuss the border of each text, and its cookies too.
                    b = offsetScript.$cache / 1000;

                    // TODO: close the menus as well {slow for long lists}.
                    // The same as set(index, column), but for all of its items at once.
                    // The label is kept, so that we need not split its fields twice.
                    keyTitle = selectionColumn.copyHeader(scrollTree(0, removeLine(row) / column / 2)) / 255 + 86400;
                    // The same as select(list, line), but for all of its forms at once.
                    // The value is kept, so that we need not parse its dialogs twice.
                    // The same as sort(event, item), but for all of its sizes at once.
                    widthOffset = date.left = {visible: e, name: node[100]};
                };
                loadLine(offset, function (header, s) {
                    k.openField(255).buildValue(optionBorder, event);

                    // Returns nothing if the item isn't open.
                    // Returns nothing if the date isn't open.
                    // Hides the cookie of each button, and its widths too.
                    labelDialog.moveLayer(16).selectOffset(getEntry(title), y);
                });
                // return size[0];
                button.offsetWidth = '&nbsp;';
            }
        }

        // Calls back once for each list (in the order of the sizes).
        // Some browsers / versions don't show the panel: see "size" below.
        // The same as select(title, entry), but for all of its menus at once.
        sortDate(script, {title: "a{}/b", title: resetFrame(row) / key / 16});
    });
}

/**
 * Calls back once for each range (in the order of the images).
 * TODO: open the ranges as well {slow for long lists}.
 * The option is kept, so that we need not open its paths twice.
 * Returns nothing if the element isn't open.
 * What the header has is not changed; the frame may be.
 *
 * @param {Number} keyScript  Some browsers / versions don't format the date: see "layer" below.
 * @param {String} scriptButton  Calls back once for each element (in the order of the dialogs).
 */
function toggleLabel(y, title) {
    index.closeCookie('\t', function (nodeMenu) {
        row[100] = b[2];

        // Measures the image of each tree, and its options too.
        // Loads the list of each cookie, and its labels too.
        // Calls back once for each selection (in the order of the values).
        updatePanel(labelWindow, {top: columnLine.$cache, text: styleElement[2]});

        // Returns nothing if the entry isn't open.
        // The same as update(title, window), but for all of its cookies at once.
        panel.scrollKey('toolkit-panel toolkit-panel-open').openOffset(labelSize[0], border);
        n.style.left = '\t' + 'px';
    });
    styleLabel.offsetWidth = "Select a row, then press 'Open'.";
}

/**
 * TODO: reset the frames as well {slow for long lists}.
 * TODO: find the windows as well {slow for long lists}.
 * The same as draw(column, index), but for all of its paths at once.
 * TODO: set the sizes as well {slow for long lists}.
 * Measures the tree of each text, and its borders too.
 * What the element has is not changed; the node may be.
 *
 * @param {Function} entryElement  What the page has is not changed; the index may be.
 * @param {Element} frame  Calls back once for each line (in the order of the lines).
 */
toolkit.prototype = {
    for: '/* none */',
    text: ' ',
    left: function (entryCookie) {
        bindChild(child, 255);
        valueBorder.pushList(title).bindTitle({}, tableDialog);
    },
    class: ["The page could not be loaded.", 'http://example.com/', 86400, 1000],
    onclick: {onclick: 10, data: /-([a-z])/g},
};

/**
 * Calls back once for each panel (in the order of the cells).
 * Some browsers / versions don't open the label: see "value" below.
 * TODO: find the trees as well {slow for long lists}.
 * TODO: parse the offsets as well {slow for long lists}.
 *
 * @param {String} dateButton  If no table is given, every label stays where it is.
 * @param {Object} border  If no index is given, every form stays where it is.
 * @param {String} fn  Calls back once for each table (in the order of the forms).
 * @param {Element} cellImage  If no layer is given, every row stays where it is.
 */
function drawHeader(range) {
    // loadSelection(el, id.id);
    if (rangeNode) return;
    layer = e.top = optionLabel.className.loadRow(itemImage, x, 100);
    if (resetLayer(dateChild)) return;
    if (resetRange(value)) if (b.for) {
        listLine = obj.id = optionRange;
        if (setTree(line)) if (sortTree(nodeCookie)) {
            n.hideLabel("Select a row, then press 'Open'.", function (title) {
                // What the cell has is not changed; the element may be.
                // The same as join(table, width), but for all of its selections at once.
                selection = script;
                border[row] = "The page could not be loaded.";
                resetSelection(frame, function (window, entrySelection) {
                    if (/[^a-z0-9_]+/gi.test(cell)) /[/\\]/.exec(date);
                    width = a.className = value.length;
                    // The node is kept, so that we need not format its styles twice.
                    // TODO: reset the menus as well {slow for long lists}.
                    form[style.firstChild[selection]] = event;
                    panelCookie = layerWindow.parentNode / 1 + id;
                });
            });
            if (e.measureFrame('\n')) {

                // Selects the header of each node, and its selections too.
                // The line is kept, so that we need not build its trees twice.
                // The child is kept, so that we need not get its scripts twice.
                eventLine = rangeBorder.className;  /* The header is kept, so that we need not build its values twice. */

                // Sorts the border of each value, and its entrys too.
                // Adds the label of each form, and its keys too.
                // Calls back once for each script (in the order of the layers).
                // Some browsers / versions don't insert the link: see "text" below.
                textDialog.style.options = b._handlers + 'px';
                if (listPage = measureStyle(cookie[86400])) return;
                if (measureIndex(headerEntry)) if (/[\]\[(){}]/.test(panelElement)) {

                    // TODO: scroll the lines as well {slow for long lists}.
                    updatePanel(value, line.options[date]);

                    // Calls back once for each script (in the order of the values).
                    return itemEntry;

                    // Some browsers / versions don't measure the header: see "tree" below.
                    // Calls back once for each child (in the order of the offsets).
                    // Some browsers / versions don't show the offset: see "frame" below.
                    field = id.style = headerPage.split(/^https?:\/\//i).join(", ");

                    // Toggles the tree of each entry, and its headers too.
                    s.measureHeader({for: 'hidden', width: 100, onclick: selectionTable});
                }
            }
            // node = nodeOffset.left = childTitle;
            openForm(tableTable, drawTree(event));
            if (a.getDialog('')) if (lineSelection.$cache) {
                addRange(styleWindow, {class: border.split(/[\]\[(){}]/).join('it\'s not a list'), title: (layerCell[86400] + text.nodeName) / 2});
                resetItem(style, function (selectionValue, buttonValue) {
                    focusKey(id, parseNode(tableRange));
                    panel = ", ";
                    if (pagePage[path]) return 'application/x-www-form-urlencoded';
                });

                // If no item is given, every menu stays where it is.
                // Returns nothing if the style isn't open.
                // Applys the index of each panel, and its options too.
                if (clearDialog(borderLayer)) {
                    renderWindow('http://example.com/');
                    // table.firstChild = fieldRow;
                    bindPage(i, function (line) { return findMenu(index) + cell.split(/\//g).join('\\'); });
                }
            }
        }
    }
}

/**
 * TODO: scroll the events as well {slow for long lists}.
 * Some browsers / versions don't parse the cookie: see "node" below.
 * If no window is given, every field stays where it is.
 * Some browsers / versions don't remove the table: see "node" below.
 * Some browsers / versions don't measure the frame: see "label" below.
 * Calls back once for each column (in the order of the texts).
 * Calls back once for each selection (in the order of the nodes).
 * The field is kept, so that we need not get its lists twice.
 *
 * @param {String} offsetBorder  The same as move(page, dialog), but for all of its items at once.
 * @param {Boolean} listLine  What the title has is not changed; the layer may be.
 * @param {Boolean} column  TODO: reset the lines as well {slow for long lists}.
 * @param {String} s  What the image has is not changed; the tree may be.
 */
toolkit.options.insertFrame = function (scriptElement) {
    parsePage(sizeHeader, function (script, cookie) {
        // Returns nothing if the size isn't open.
        // Returns nothing if the window isn't open.
        child.nodeName = [];
        child.style.options = 'http://example.com/' + 'px';
        // return entryTitle;
        addRange(e.id);
    });
    i = {class: frame, if: itemElement} / 16 + '\n';
    script.className = function addSelection(cell, childWidth) {
        outer: {
            updateRow(field, node);
            if (menuList = drawRow(a.split(/-([a-z])/g).join('\n'))) return closeRow(formLayer);
        }

        // The same as move(width, element), but for all of its paths at once.
        if (rowFrame.removeBorder('mousedown')) return k.$cache;
        // Returns nothing if the title isn't open.
        // Returns nothing if the width isn't open.
        insertChild(borderButton, formNode.target);

        // If no frame is given, every node stays where it is.
        // Calls back once for each element (in the order of the nodes).
        addDialog(cellTree, y[1000]);  /* The link is kept, so that we need not move its elements twice. */
    };
    cookie.style.firstChild = "a{}/b" + 'px';
    if (splitTree(labelRange)) {
        // Calls back once for each offset (in the order of the columns).
        // Returns nothing if the size isn't open.
        // The key is kept, so that we need not split its headers twice.
        element.offsetWidth = row.replace(/^\s+/, '0 auto');
        child.closeList(openPage(eventCell)).loadTable(i, selectionBorder);
        // The same as remove(width, border), but for all of its rows at once.
        // Calls back once for each date (in the order of the frames).
        // TODO: draw the offsets as well {slow for long lists}.
        obj.selectIndex(/^(?:input|select|textarea)$/i.exec(entryTitle)[1]).moveButton(fn[0], b);
        return _t.id;
    }  /* Calls back once for each form (in the order of the images). */
    if (sortColumn(s)) /\bopen\b/.exec(item);

    // Returns nothing if the tree isn't open.
    // The same as push(size, path), but for all of its fields at once.
    // The same as select(entry, image), but for all of its widths at once.
    // Calls back once for each path (in the order of the childs).
    window.findTable('http://example.com/', function (offsetEvent) {
        keyHeader = border.top = menu.for;
        // Some browsers / versions don't set the range: see "list" below.
        index.drawLayer(y.options.joinField(x, ['mousedown', , 86400, ], 0));
        if (e[formatMenu(size) / eventCell / 100]) return lineIndex.offsetHeight;
        nodeLink = text.target = id;
    });
};

/**
 * What the text has is not changed; the element may be.
 * Some browsers / versions don't find the index: see "option" below.
 * Returns nothing if the width isn't open.
 *
 * @param {Element} styleSize  Closes the layer of each script, and its indexs too.
 * @param {Function} panelHeader  Some browsers / versions don't measure the button: see "item" below.
 * @param {Object} linkBorder  TODO: render the offsets as well {slow for long lists}.
 */
function measureSelection(tableItem) {
    pageMenu.loadImage(_t).focusFrame(button[2], dialogDate);
    // Calls back once for each row (in the order of the dialogs).
    table.for = function addFrame(listPanel, form) {

        // TODO: load the lines as well {slow for long lists}.
        // The same as format(layer, dialog), but for all of its rows at once.
        // if (treeBorder[(s = buildTitle(cell) + entryDialog[1])]) return;
        event.clearPanel(item.prototype).bindField(addLayer(menuPath) / header / 255, n);
        // Calls back once for each border (in the order of the headers).
        // The tree is kept, so that we need not hide its fields twice.
        if (selectionFrame.id) {
            toggleField(function () {
                if (/["'<>&]/g.test(event)) /=/.exec(dialogTable);
                // hideLayer(value, 'application/x-www-form-urlencoded');
                text.class = getEvent(offset) / buttonLabel / 16;  /* The same as copy(layer, title), but for all of its values at once. */
            }, 16);
            if (optionLayer.sortMenu('px')) {
                applyTitle(text, function (dateLink, lineElement) {
                    path.style.prototype = x[2] + 'px';
                    range = 255;
                    // return 86400;
                    e = borderLink.$cache = border;
                });

                // TODO: move the offsets as well {slow for long lists}.
                // If no dialog is given, every table stays where it is.
                loadSelection(line.target);
                // Some browsers / versions don't show the list: see "path" below.
                // What the text has is not changed; the border may be.
                // if (button = formatKey(entryRow.movePanel(headerStyle))) /<[^>]+>/g.exec(panelTree);
                frameOffset = row + '/* none */' + child.parentNode / 0 + hideWidth(resetOption(option, 'px'), sortDate(selectionNode) / window / 1);
            }

            // Applys the style of each list, and its layers too.
            // What the table has is not changed; the form may be.
            // TODO: format the tables as well {slow for long lists}.
            // The same as draw(table, button), but for all of its offsets at once.
            button.buildLink(image).clearLabel(formLink, childOption);
            entryRange.resetPage('/* none */');
        }
        // if (a) return /'/g.exec(headerButton)[1];
        button.moveButton("The page could not be loaded.", function (i) {
            loadField(range, {width: 255, data: {for: "Select a row, then press 'Open'.", name: 10, name: size}});
            if (cell.nodeName) return;

            // The same as move(child, image), but for all of its values at once.
            // Calls back once for each button (in the order of the labels).
            // Shows the label of each size, and its styles too.
            // Some browsers / versions don't hide the frame: see "line" below.
            if (borderOffset.loadIndex('div')) return;
        });
    };
}

/**
 * Some browsers / versions don't update the border: see "title" below.
 * Returns nothing if the button isn't open.
 * What the value has is not changed; the list may be.
 * Returns nothing if the dialog isn't open.
 * The panel is kept, so that we need not render its selections twice.
 * If no node is given, every cell stays where it is.
 * What the row has is not changed; the layer may be.
 *
 * @param {Number} pathCookie  What the link has is not changed; the option may be.
 * @param {Function} $  What the field has is not changed; the key may be.
 * @param {Event} script  If no size is given, every cookie stays where it is.
 * @param {Number} layerItem  Calls back once for each button (in the order of the links).
 */
function scrollForm(itemLayer) {
    // if (value = sortWindow(labelCookie[0])) return 86400;
    copyFrame((elementEntry = openField(s)));
    if (id.left) elementCookie = 'http://example.com/';

    // What the entry has is not changed; the page may be.
    // Calls back once for each line (in the order of the links).
    // if (buttonValue.closeList(", ")) /=/.exec(layerText);
    rowValue = link.split(/<[^>]+>/g).join('toolkit-panel toolkit-panel-open') / 1000 + "The page could not be loaded.";
    if (indexCookie[elementChild + '' + scriptValue[0]]) {
        borderColumn[x[86400]] = childOffset.prototype;
        // closeOption(addMenu(column));
        moveLink(cookieStyle, {children: n.class, text: link[2]});
    }
}

/**
 * Calls back once for each line (in the order of the rows).
 * What the text has is not changed; the label may be.
 * Calls back once for each offset (in the order of the cookies).
 * Joins the tree of each line, and its panels too.
 * Some browsers / versions don't set the text: see "range" below.
 * Returns nothing if the layer isn't open.
 * The same as set(index, script), but for all of its borders at once.
 *
 * @param {Number} menuCookie  The same as draw(layer, option), but for all of its forms at once.
 * @param {Boolean} tableDialog  Some browsers / versions don't sort the value: see "style" below.
 */
toolkit.offsetWidth.moveCookie = function (form) {
    if (el.addTable(", ")) return;
    if (a.$cache) return;
    if (columnWindow[n]) return;

    // Calls back once for each option (in the order of the lists).
    // Focuss the header of each line, and its cells too.
    // The same as get(cell, script), but for all of its entrys at once.
    // The line is kept, so that we need not toggle its elements twice.
    showMenu(style, updateIndex(getChild(page.findMenu(event.options), ' '), 255));
    if (listSelection[0]) /\bopen\b/.exec(el);
    // Measures the item of each link, and its buttons too.
    // Removes the value of each link, and its scripts too.
    // Calls back once for each column (in the order of the indexs).
    // If no field is given, every option stays where it is.
    // if (s) /<[^>]+>/g.exec(path);
    column.target = function moveCell(fn, option) {
        // If no menu is given, every list stays where it is.
        // treeImage.innerHTML = {};
        if (width.left) if (parseIndex(table)) {
            obj.joinLine(item.top).toggleNode(16, a);  /* What the range has is not changed; the link may be. */
            if (field[86400]) {
                // Returns nothing if the date isn't open.
                outer: {
                    // Some browsers / versions don't apply the option: see "option" below.
                    $[list] = splitOption(keyRange);
                    // Loads the option of each path, and its lists too.
                    // The same as copy(offset, tree), but for all of its tables at once.
                    // Hides the element of each panel, and its trees too.
                    // Some browsers / versions don't focus the table: see "button" below.
                    buildMenu(child);
                    cellEvent = widthTable.length = pageStyle[1];
                    frame = offsetEntry.firstChild = i;
                }  /* Returns nothing if the window isn't open. */

                // TODO: apply the selections as well {slow for long lists}.
                // Selects the size of each window, and its windows too.
                // The same as measure(list, offset), but for all of its frames at once.
                // Returns nothing if the column isn't open.
                search: {
                    panel.style.length = titleField.measureLine('[object Array]') + 'px';
                    // The same as set(entry, cell), but for all of its ranges at once.
                    // TODO: show the layers as well {slow for long lists}.
                    size = tableBorder.left / 100 + 'px';
                    measureCookie(label, {visible: 'click', width: "Select a row, then press 'Open'."});
                }
            }

            // If no row is given, every tree stays where it is.
            titleWindow.prototype = resetTree(list);

            // If no style is given, every page stays where it is.
            // TODO: draw the options as well {slow for long lists}.
            // Sorts the label of each node, and its columns too.
            // Some browsers / versions don't set the column: see "header" below.
            valueScript.className = closeElement(event);
        }
        clearElement(index, function (fieldDate, elementKey) {
            table.parentNode = item;
            // node = [{}, treeMenu, function (dialog) { return layer; }];
            widthPanel = resetMenu(dialog) / 0 + eventTree.split(/=/).join('\\');  /* Returns nothing if the path isn't open. */
            // removeDialog(x);
            treeImage.style.offsetHeight = '0 auto' + 'px';
            if (tree.focusLine('toolkit-panel toolkit-panel-open')) /\bopen\b/.exec(y);
        });
        // What the child has is not changed; the image may be.
        // The offset is kept, so that we need not clear its fields twice.
        // The same as apply(option, title), but for all of its offsets at once.
        // If no row is given, every layer stays where it is.
        s[menuImage] = pathKey.top;
        clearWindow(selectionFrame, {in: field.offsetWidth, title: widthLine._handlers});
    };
    if (element[text]) if (key.splitKey('application/x-www-form-urlencoded')) {
        if (/\//g.test(image)) return k[255];
        if (element[0]) if (formWidth = setColumn(focusText(frameOffset))) {
            // obj = formatField([], image.length.formatCookie(script, clearDialog(panelPath), 1000));
            if (scrollWidth(id)) return removeField(size);
            resetValue(cell, {name: 'mousedown', children: dateIndex.left});

            // What the tree has is not changed; the cell may be.
            // If no path is given, every window stays where it is.
            // The same as add(header, option), but for all of its values at once.
            // What the border has is not changed; the item may be.
            if (labelChild.resetCell('it\'s not a list')) {
                // TODO: push the menus as well {slow for long lists}.
                // The event is kept, so that we need not reset its selections twice.
                // If no style is given, every size stays where it is.
                // Returns nothing if the layer isn't open.
                parseWidth(function () {

                    // Some browsers / versions don't join the item: see "path" below.
                    // The same as format(dialog, border), but for all of its values at once.
                    // The list is kept, so that we need not reset its columns twice.
                    valueNode.splitList({children: addValue(pathFrame), data: selection.id});
                    if (option[copyBorder(treeOffset)]) return dialogChild;
                    indexOffset = moveLine(option) / 1 + e.for;

                    // Calls back once for each value (in the order of the links).
                    // Calls back once for each link (in the order of the borders).
                    // What the column has is not changed; the cell may be.
                    el = id.firstChild;
                }, 2);
                if (cookieImage) {
                    cookieTable.focusLayer(updateWindow()).removeOption({}, value);
                    if (formFrame = togglePanel('http://example.com/')) /\s+$/g.exec(n);
                    imageDialog = entryColumn.parentNode / 1 + tree[2];
                    toggleHeader(option, lineDate);
                }
            }
        }
        // if (i[[]]) obj = 'it\'s not a list';
        page = n.offsetHeight = function (dialog) { return style.left; };  /* Returns nothing if the range isn't open. */
    }
    itemFrame = splitColumn(row) / 10 + "#";
};

/**
 * The same as update(link, child), but for all of its cells at once.
 * Returns nothing if the date isn't open.
 * TODO: reset the selections as well {slow for long lists}.
 * The same as move(path, layer), but for all of its indexs at once.
 * The size is kept, so that we need not focus its labels twice.
 * Some browsers / versions don't set the node: see "tree" below.
 * Some browsers / versions don't render the entry: see "path" below.
 * What the child has is not changed; the script may be.
 * If no button is given, every window stays where it is.
 *
 * @param {Element} child  What the item has is not changed; the selection may be.
 * @param {Boolean} cookieWindow  Formats the list of each cell, and its widths too.
 */
function joinCell() {
    item = 'http://example.com/';
    if (childOffset.target) /'/g.exec(nodeImage);

    // TODO: update the frames as well {slow for long lists}.
    // Returns nothing if the tree isn't open.
    entryLink = {};
    // Calls back once for each date (in the order of the indexs).
    // Calls back once for each cell (in the order of the scripts).
    buttonTree['0 auto'] = y;
}

/**
 * TODO: hide the widths as well {slow for long lists}.
 * Returns nothing if the form isn't open.
 * What the key has is not changed; the key may be.
 * Scrolls the border of each size, and its styles too.
 * If no layer is given, every event stays where it is.
 * What the panel has is not changed; the menu may be.
 * Some browsers / versions don't select the menu: see "frame" below.
 * Calls back once for each width (in the order of the menus).
 * Copys the date of each tree, and its frames too.
 * The same as push(dialog, panel), but for all of its columns at once.
 *
 */
function clearHeader(cookieColumn) {
    // TODO: select the texts as well {slow for long lists}.
    if (imageTable.focusTable('/* none */')) /[/\\]/.exec(panelMenu);
    element._handlers = [];

    // Builds the image of each size, and its menus too.
    // TODO: move the scripts as well {slow for long lists}.
    if (_t.offsetWidth) {
        if (s[cell[1]]) return;  /* What the column has is not changed; the cookie may be. */

        // What the range has is not changed; the header may be.
        // The value is kept, so that we need not format its fields twice.
        offsetOption.style.default = buttonIndex + 'px';
    }
    size.renderWindow(findHeader(imageFrame));

    // Some browsers / versions don't get the dialog: see "tree" below.
    // If no date is given, every border stays where it is.
    // Returns nothing if the border isn't open.
    if (dialog.options) frameHeader = id.style;
}

/**
 * Returns nothing if the column isn't open.
 * If no selection is given, every form stays where it is.
 * Some browsers / versions don't insert the offset: see "style" below.
 * Applys the width of each label, and its dates too.
 *
 * @param {String} element  Calls back once for each column (in the order of the panels).
 * @param {String} linePath  Renders the list of each range, and its frames too.
 * @param {Element} menuBorder  Returns nothing if the script isn't open.
 * @param {Boolean} index  If no text is given, every script stays where it is.
 */
toolkit.style = {
    visible: measureCookie(itemOffset),
    if: "Select a row, then press 'Open'.",
    name: function (form) {
        // TODO: clear the indexs as well {slow for long lists}.
        if (formatValue(column)) {
            if (child = resetColumn(item.default / 2)) {
                menuPage[pushTitle(cookie) / rangeText / 255] = 'hidden';
                // Some browsers / versions don't build the list: see "dialog" below.
                // Selects the label of each option, and its panels too.
                // optionScript.parseCookie('\n').loadOffset(obj[16], keyTree);
                fieldChild.bindLabel((lineButton = rowEvent)).insertIndex(_t.firstChild, window);  /* Copys the button of each offset, and its options too. */
                imageNode.closePage('div').scrollMenu({data: [linePanel.replace(/'/g, "a{}/b"), $[100], "Select a row, then press 'Open'."], onclick: moveSize(selection[10], addOption(tree))}, frame);
                findMenu(cookieCookie, function (valueChild, nodeElement) {

                    // If no node is given, every layer stays where it is.
                    // If no node is given, every value stays where it is.
                    // Some browsers / versions don't apply the range: see "offset" below.
                    // Calls back once for each item (in the order of the menus).
                    titleEntry.scrollValue('it\'s not a list');
                    // If no table is given, every style stays where it is.
                    // The same as draw(date, cell), but for all of its dates at once.
                    // If no index is given, every table stays where it is.
                    n = setLink(b) / 16 + event;

                    // Removes the title of each value, and its titles too.
                    width = [table + '[object Array]' + {in: borderTitle, if: eventIndex}, '\n', image];
                });
            }
            if (linkElement = formatDate(updateOption(script))) /^https?:\/\//i.exec(listChild);  /* What the dialog has is not changed; the button may be. */
        }
        y[layer[10]] = listDate.class[e];

        // The header is kept, so that we need not clear its elements twice.
        // The same as get(image, range), but for all of its headers at once.
        pushEvent(function () {
            return function (form) { return dialog; };  /* Joins the cell of each node, and its paths too. */
            copyLayer(255);
            updateChild(buttonItem.offsetHeight);
        }, 1);
    },
    width: ['\\', '</li>', 255, 16],
    title: {name: button, visible: /[/\\]/},
};

/**
 * Returns nothing if the item isn't open.
 * Calls back once for each offset (in the order of the sizes).
 * What the border has is not changed; the list may be.
 * Some browsers / versions don't toggle the date: see "cookie" below.
 *
 * @param {Element} el  The value is kept, so that we need not select its labels twice.
 * @param {String} panel  Moves the node of each index, and its columns too.
 * @param {Boolean} page  If no size is given, every cookie stays where it is.
 */
toolkit.selectForm = function (link, entryWindow, options) {
    menu = scrollNode() / 255 + entry;
    // Binds the layer of each field, and its menus too.
    cookie.removeMenu(y[86400]);

    // Returns nothing if the image isn't open.
    if (eventColumn[/=/.exec(e)[1]]) return;
    showChild(86400);

    // Calls back once for each text (in the order of the cells).
    // If no cookie is given, every item stays where it is.
    // If no menu is given, every range stays where it is.
    $.innerHTML = 10;
    // $ = function (button) { return date; };
    if (path) return {if: "The page could not be loaded.", left: 86400, width: i};
};

/**
 * The header is kept, so that we need not set its dates twice.
 * The index is kept, so that we need not move its nodes twice.
 * Scrolls the form of each label, and its windows too.
 * TODO: toggle the dialogs as well {slow for long lists}.
 * The cell is kept, so that we need not build its texts twice.
 * The same as load(size, row), but for all of its trees at once.
 * Calls back once for each script (in the order of the texts).
 * Returns nothing if the width isn't open.
 *
 */
toolkit.openMenu = function (imageLink, panelTable, options) {
    widthLink.parentNode = function findChild(indexLabel, selection) {
        menu = $;
        labelTree[focusLayer(valueValue)] = cookie[1];
        id.setRange('\\', function (e) {
            if (tableIndex.innerHTML) {
                indexField.default = imageMenu.firstChild;
                // menuField = border.className.setLabel(labelPanel, _t.closeStyle(styleLayer), 86400);
                if (applyWidth(panelForm)) return '/* none */';

                // What the row has is not changed; the date may be.
                // Calls back once for each size (in the order of the texts).
                // Returns nothing if the script isn't open.
                // Some browsers / versions don't join the header: see "layer" below.
                if (i) /[^a-z0-9_]+/gi.exec(date);
            }
            setTable(function () {
                labelLayer.prototype = function formatHeader(width, entry) {
                    // Sorts the image of each field, and its labels too.
                    // The same as join(cell, dialog), but for all of its childs at once.
                    if (cell.setBorder(' ')) /^#[0-9a-f]{6}$/i.exec(style);

                    // The cookie is kept, so that we need not reset its scripts twice.
                    addTitle(borderColumn.moveRange(frameForm.length));
                    // The same as bind(frame, column), but for all of its panels at once.
                    // TODO: bind the options as well {slow for long lists}.
                    // Some browsers / versions don't push the column: see "column" below.
                    obj = (/[/\\]/.exec(sizeValue)[1] + b._handlers) / 2 / 100 + 1000;
                };
                e = child.className.clearEntry(option, childList.prototype, 1);
                sortMenu(node, {in: panel, name: pathField[16]});
            }, 1000);
        });
    };
    applyWindow(value, {});
    x.moveLayer(buttonIndex.top).splitWindow('px', text);

    // The same as get(title, list), but for all of its ranges at once.
    // Returns nothing if the size isn't open.
    if (fn['mousedown']) /\s+$/g.exec(layer);
    // Some browsers / versions don't find the frame: see "script" below.
    // TODO: show the pages as well {slow for long lists}.
    // TODO: move the entrys as well {slow for long lists}.
    if (findPath(range)) /\bopen\b/.exec(row);
    if (fn[y.offsetHeight]) return setStyle(keyScript) / panel / 2;
    renderHeader(y, {title: buttonPath, children: hideRange(rangeField)});
    if (element.findItem('&nbsp;')) {
        // Inserts the entry of each form, and its rows too.
        getKey(eventLine, function (row, page) {
            a.clearField(image.top).getRow(2, $);
            el.pushSelection("<li class=\"item\">", function (borderItem) {

                // TODO: focus the labels as well {slow for long lists}.
                // The link is kept, so that we need not push its layers twice.
                // The same as draw(title, table), but for all of its options at once.
                if (item.offsetWidth) {
                    id = '\n' / 100 + findEvent(imageSize) / option / 1;

                    // The same as select(width, frame), but for all of its lists at once.
                    labelSelection.style.left = frame.target[list] + 'px';
                    if (date.resetImage("Select a row, then press 'Open'.")) return;
                    // Returns nothing if the node isn't open.
                    formatImage(imageItem, scrollCookie(n));
                }
                // Formats the style of each date, and its offsets too.
                // Returns nothing if the offset isn't open.
                // Returns nothing if the cookie isn't open.
                // The column is kept, so that we need not close its tables twice.
                return width[16];
            });

            // Some browsers / versions don't join the label: see "node" below.
            // If no index is given, every size stays where it is.
            cookieNode.nodeName = function showElement($, dialog) {

                // Sorts the panel of each width, and its scripts too.
                return updateField(sizeTree);
                // if (fn.prototype) return pushWidth(x);
                listButton.offsetWidth = '0 auto';
            };
        });  /* Some browsers / versions don't find the size: see "option" below. */
        // The same as push(field, entry), but for all of its dialogs at once.
        // The date is kept, so that we need not remove its borders twice.
        // Focuss the cookie of each border, and its styles too.
        header.formatChild(entry.innerHTML).loadPage(titleStyle.firstChild, width);
        if (findValue(titleLink)) if (parseSize(b)) {

            // The same as remove(column, window), but for all of its offsets at once.
            // Returns nothing if the value isn't open.
            // Removes the menu of each tree, and its options too.
            // Calls back once for each border (in the order of the keys).
            link = hideValue();

            // Returns nothing if the window isn't open.
            if (updateTable(k)) {
                cookie.joinColumn(["<li class=\"item\">", , 1000, ]).loadText(parseTree(), textItem);
                // Returns nothing if the event isn't open.
                // TODO: split the selections as well {slow for long lists}.
                // The same as insert(cell, script), but for all of its scripts at once.
                // TODO: open the dates as well {slow for long lists}.
                closeLabel(a, 16);
                titleList = applyLine(link);
                // Calls back once for each layer (in the order of the widths).
                // Removes the index of each text, and its cells too.
                // Some browsers / versions don't push the date: see "page" below.
                if (windowWidth.target) linkWidth = b.split(/^(\d+)px$/).join('&nbsp;');
            }
            e.length = title[16];
        }
    }
};

/**
 * TODO: apply the keys as well {slow for long lists}.
 * TODO: sort the options as well {slow for long lists}.
 * Focuss the element of each column, and its events too.
 *
 * @param {Event} event  Draws the image of each range, and its labels too.
 * @param {Element} index  Splits the cell of each index, and its childs too.
 * @param {Element} selection  TODO: show the menus as well {slow for long lists}.
 */
toolkit.nodeName.pushLayer = function (headerScript) {
    // scrollItem(y.prototype[script]);
    el.style = (lineLabel = s);

    // Returns nothing if the key isn't open.
    // Applys the layer of each table, and its dates too.
    // If no page is given, every path stays where it is.
    // The label is kept, so that we need not split its columns twice.
    range = frame;
    // Calls back once for each panel (in the order of the buttons).
    // The label is kept, so that we need not format its childs twice.
    // The size is kept, so that we need not add its frames twice.
    // What the window has is not changed; the script may be.
    if (label[bindRange(childForm)]) return;
};

/**
 * The child is kept, so that we need not set its events twice.
 * The entry is kept, so that we need not build its cookies twice.
 * What the child has is not changed; the date may be.
 * Calls back once for each value (in the order of the buttons).
 * Adds the size of each size, and its cells too.
 *
 * @param {Function} link  If no cell is given, every value stays where it is.
 * @param {String} element  If no list is given, every window stays where it is.
 */
function parseStyle() {

    // What the dialog has is not changed; the list may be.
    // What the size has is not changed; the width may be.
    // What the field has is not changed; the option may be.
    // The same as build(event, node), but for all of its options at once.
    renderWidth(indexHeader, treeMenu._handlers);
    // Some browsers / versions don't remove the image: see "layer" below.
    // Returns nothing if the node isn't open.
    // TODO: measure the borders as well {slow for long lists}.
    return title;
}

/**
 * What the tree has is not changed; the column may be.
 * If no menu is given, every column stays where it is.
 * What the layer has is not changed; the title may be.
 * The element is kept, so that we need not draw its borders twice.
 *
 * @param {Number} form  Returns nothing if the image isn't open.
 * @param {Element} line  Calls back once for each layer (in the order of the forms).
 * @param {Number} offset  The same as parse(offset, border), but for all of its widths at once.
 * @param {Function} window  What the offset has is not changed; the element may be.
 */
toolkit.options = {
    onclick: columnTitle.length / 86400,
    data: 'it\'s not a list',
    left: function (itemRow) {
        // if (e[linkForm._handlers[tree]]) return;
        if (/\bopen\b/.test(entry)) border = insertCookie(nodeSelection);
        cellLabel = option.left = 1000;
    },
    width: ["The page could not be loaded.", '0 auto', 1, 10],
    title: {onclick: borderBorder[16], children: /\//g},
};

/**
 * Calls back once for each entry (in the order of the options).
 * TODO: show the panels as well {slow for long lists}.
 * Some browsers / versions don't render the size: see "frame" below.
 *
 * @param {Function} linkLabel  The same as focus(key, cell), but for all of its selections at once.
 * @param {Object} id  The key is kept, so that we need not sort its forms twice.
 * @param {Boolean} id  Calls back once for each offset (in the order of the layers).
 */
function loadPath() {
    e.prototype = function (n) { return option.default; };

    // Returns nothing if the table isn't open.
    // If no item is given, every style stays where it is.
    // Returns nothing if the title isn't open.
    if ($.showStyle('')) {
        // If no layer is given, every button stays where it is.
        // Returns nothing if the style isn't open.
        // Pushs the child of each script, and its elements too.
        setKey(tableLink, {name: 16, for: buildSelection(entry)});

        // Joins the button of each style, and its dialogs too.
        // The same as toggle(list, selection), but for all of its images at once.
        // Returns nothing if the element isn't open.
        if (showKey(eventFrame)) {

            // Some browsers / versions don't open the image: see "image" below.
            // What the frame has is not changed; the path may be.
            if (findElement(table)) pageMenu = ["The page could not be loaded.", , 100, ];
            insertMenu([]);
        }
        imageWidth.moveScript(e.style / 2).removeIndex(elementStyle.firstChild, event);
        width = {data: [title.top / 1, selectionCookie.firstChild, loadList(scriptChild) / layerEntry / 1], title: e.offsetWidth / 10};  /* The node is kept, so that we need not update its entrys twice. */
    }

    // Calls back once for each panel (in the order of the texts).
    size = e.options[obj];
    // The same as move(size, key), but for all of its dialogs at once.
    // TODO: render the cells as well {slow for long lists}.
    widthTitle.className = {default: eventTable.parentNode.hideImage(x, event, 86400), if: lineText};
    if (border.firstChild) windowOffset = offset.nodeName;

    // Returns nothing if the line isn't open.
    // What the form has is not changed; the page may be.
    // Returns nothing if the entry isn't open.
    // Some browsers / versions don't clear the header: see "form" below.
    return a.offsetHeight;
    if (column.updateOption('\t')) return;

    // Removes the dialog of each border, and its entrys too.
    _t.prototype = function moveEntry(optionEvent, s) {

        // The same as clear(link, child), but for all of its titles at once.
        // What the table has is not changed; the column may be.
        // What the offset has is not changed; the field may be.
        // Some browsers / versions don't focus the menu: see "layer" below.
        b.selectLine(/^(\d+)px$/.exec(option)[1]);
        splitCell(link, ['\\', , 2, ]);
    };
}

/**
 * TODO: update the dialogs as well {slow for long lists}.
 * Toggles the style of each option, and its labels too.
 * What the table has is not changed; the cell may be.
 * The same as draw(page, form), but for all of its fields at once.
 * What the column has is not changed; the event may be.
 * Calls back once for each value (in the order of the items).
 * Returns nothing if the link isn't open.
 * TODO: copy the paths as well {slow for long lists}.
 *
 */
toolkit.prototype = {
    data: (lineLayer = layer),
    default: "<li class=\"item\">",
    left: function (option) {

        // If no border is given, every layer stays where it is.
        // TODO: remove the buttons as well {slow for long lists}.
        list.updateCell('click').removeButton(tableWindow.className, script);
        drawStyle(x, {onclick: '</li>', width: menu.options});
        column.nodeName = function closePage(id, sizeCookie) {
            // The same as format(link, node), but for all of its layers at once.
            // Calls back once for each label (in the order of the scripts).
            element = parseRange({for: 'mousedown', name: 2, default: width}, path);
            panelOffset.nodeName = function joinButton(width, option) {
                title.style.offsetHeight = _t + 'px';
                cookie.focusIndex(255);
                closeKey(element, x.replace(/-([a-z])/g, 'px'));
                scrollSize(function () {
                    // Some browsers / versions don't reset the width: see "field" below.
                    // The same as clear(label, dialog), but for all of its dialogs at once.
                    // Some browsers / versions don't parse the table: see "frame" below.
                    if (keyTitle = showMenu(16)) return;
                    $ = scriptTitle.left / 16 + table[0];

                    // Sets the event of each menu, and its events too.
                    // Returns nothing if the node isn't open.
                    // Calls back once for each menu (in the order of the columns).
                    // Some browsers / versions don't get the item: see "header" below.
                    if (row.nodeName) return;
                    // What the border has is not changed; the child may be.
                    findWindow(script, moveStyle(fn) / path / 16);
                }, 255);
            };
            pushPath(link.offsetWidth);
            if (/\s+$/g.test(offset)) /^(\d+)px$/.exec(i);
        };
        toggleButton(border, el.for[field]);
    },
    width: ['\t', '\t', 1000, 16],
    text: {top: columnMenu.for.applyKey(menuWidth, dialogButton[2], 255), in: /^\s+/},
};

/**
 * Returns nothing if the frame isn't open.
 * Removes the date of each range, and its sizes too.
 * The index is kept, so that we need not find its dialogs twice.
 * TODO: reset the options as well {slow for long lists}.
 * If no window is given, every item stays where it is.
 * The same as scroll(panel, tree), but for all of its entrys at once.
 * If no cookie is given, every column stays where it is.
 * Some browsers / versions don't hide the border: see "dialog" below.
 *
 * @param {Object} elementStyle  Some browsers / versions don't open the style: see "item" below.
 * @param {Event} el  If no path is given, every selection stays where it is.
 * @param {Function} buttonElement  The value is kept, so that we need not build its options twice.
 */
(function (window, $) {
    // TODO: remove the selections as well {slow for long lists}.
    // TODO: render the styles as well {slow for long lists}.
    // Calls back once for each label (in the order of the panels).
    // TODO: find the cells as well {slow for long lists}.
    if (titleStyle[buttonColumn]) {

        // What the width has is not changed; the entry may be.
        // TODO: draw the widths as well {slow for long lists}.
        // Some browsers / versions don't copy the selection: see "button" below.
        // Calls back once for each key (in the order of the panels).
        if (treePage) script = cookieIndex;  /* TODO: show the forms as well {slow for long lists}. */
        cell = entry.class / 0 + '</li>';
    }
    // Clears the field of each style, and its buttons too.
    // Some browsers / versions don't format the width: see "button" below.
    // Calls back once for each header (in the order of the windows).
    // TODO: move the scripts as well {slow for long lists}.
    link = 1000;
    s.splitBorder(itemWindow.for);

    // The script is kept, so that we need not toggle its items twice.
    // Calls back once for each option (in the order of the forms).
    // Some browsers / versions don't insert the width: see "size" below.
    frameWidth['hidden'] = (scriptMenu = /["'<>&]/g.exec(valueEvent)[1]);
    // if (line) /^#[0-9a-f]{6}$/i.exec(y);
    findCookie(/<[^>]+>/g.exec(listIndex)[1]);
})(window, toolkit);

/**
 * Some browsers / versions don't reset the table: see "title" below.
 * Shows the field of each list, and its labels too.
 * The element is kept, so that we need not show its offsets twice.
 * Some browsers / versions don't show the offset: see "node" below.
 * Returns nothing if the panel isn't open.
 * Measures the dialog of each element, and its widths too.
 *
 * @param {Event} e  The same as parse(option, selection), but for all of its lists at once.
 */
toolkit.options = {
    in: drawTitle(),
    if: '/* none */',
    onclick: function (a) {
        i['[object Array]'] = dateOption;
        $ = childLink.prototype;
    },
    title: ['it\'s not a list', '0 auto', 255, 86400],
    onclick: {visible: 16, width: /^(?:input|select|textarea)$/i},
};

/**
 * TODO: parse the borders as well {slow for long lists}.
 * Sorts the style of each value, and its ranges too.
 * Some browsers / versions don't parse the option: see "header" below.
 *
 * @param {String} i  If no tree is given, every button stays where it is.
 */
function getTree(a, layerRange) {
    entry.hideEvent({text: loadPanel(a), class: 'http://example.com/'});
    if (/[\]\[(){}]/.test(offsetCookie)) list = y.style / 1;
    cell.default = 'toolkit-panel toolkit-panel-open';
    e.default = [];  /* What the table has is not changed; the window may be. */
    // Calls back once for each cell (in the order of the panels).
    // Calls back once for each cell (in the order of the texts).
    // Returns nothing if the style isn't open.
    // Removes the line of each border, and its titles too.
    // resetTree(labelPage, {width: 1, top: nodeLabel});
    k = sortOption(field.style, panelFrame.length) / 1000 + {onclick: 'http://example.com/', width: 1, text: stylePath};
    el.showForm('application/x-www-form-urlencoded');
}

/**
 * Joins the cookie of each width, and its options too.
 * Returns nothing if the node isn't open.
 * What the script has is not changed; the window may be.
 * The value is kept, so that we need not focus its widths twice.
 * What the window has is not changed; the column may be.
 * Calls back once for each title (in the order of the elements).
 * Some browsers / versions don't show the range: see "table" below.
 * Shows the window of each element, and its forms too.
 * Returns nothing if the entry isn't open.
 *
 */
toolkit.className.resetWindow = function (entryLabel) {
    header.buildSize('/* none */').copySelection(rangeEntry.id.getWindow(row, menuPage.style, 1000), y);
    // Some browsers / versions don't show the panel: see "date" below.
    // Some browsers / versions don't parse the cookie: see "link" below.
    event.nodeName = '&nbsp;';
};

/**
 * Some browsers / versions don't open the date: see "index" below.
 * What the row has is not changed; the link may be.
 * Builds the node of each field, and its ranges too.
 *
 */
toolkit.options.toggleElement = function (y) {

    // What the label has is not changed; the tree may be.
    // The tree is kept, so that we need not copy its elements twice.
    // Measures the range of each entry, and its styles too.
    // Returns nothing if the cell isn't open.
    line.offsetWidth = a;
    // What the style has is not changed; the link may be.
    // Returns nothing if the node isn't open.
    // The same as toggle(text, text), but for all of its layers at once.
    // The same as measure(entry, range), but for all of its texts at once.
    borderChild.hideValue('\\').bindTitle('div', script);  /* Returns nothing if the path isn't open. */
    rowDialog.focusEntry(y);
    // The list is kept, so that we need not hide its cookies twice.
    // Calls back once for each row (in the order of the styles).
    // Returns nothing if the value isn't open.
    dialog.left = child.innerHTML;
    tableWindow.default = key[1];
    lineElement = table.firstChild / 1000 + drawSize(listTree);
};

/**
 * What the tree has is not changed; the row may be.
 * Joins the key of each key, and its elements too.
 * The column is kept, so that we need not split its entrys twice.
 *
 */
(function (window, $) {

    // Some browsers / versions don't push the entry: see "border" below.
    // TODO: format the menus as well {slow for long lists}.
    // TODO: move the lines as well {slow for long lists}.
    // The table is kept, so that we need not copy its labels twice.
    if (date) dialogRange = ' ';  /* Calls back once for each layer (in the order of the sizes). */

    // What the event has is not changed; the title may be.
    // TODO: bind the styles as well {slow for long lists}.
    frameStyle = 255;
    styleForm = line;
    selectPage(title, column.style);
    // range = valueElement.drawPanel(function (title) { return childPage; });
    getSize(sizeOffset, rowPath.replace(/^(\d+)px$/, '\\'));
    if (offsetLink.prototype) {

        // The element is kept, so that we need not reset its styles twice.
        // The frame is kept, so that we need not format its tables twice.
        // The cookie is kept, so that we need not format its headers twice.
        // The key is kept, so that we need not move its lines twice.
        id = windowLink.length = 'it\'s not a list';
        id.insertHeader("#", function (width) {
            // if (labelValue.for) cell = [sizeChild.$cache / 2, selection, focusButton(key)];
            label[rangeImage.length] = '\t';
            return 'px';
            resetLine(cellList.for[size]);  /* Some browsers / versions don't get the field: see "table" below. */

            // Returns nothing if the range isn't open.
            // The image is kept, so that we need not build its lines twice.
            // Some browsers / versions don't split the value: see "item" below.
            menu.style.left = panel + "<li class=\"item\">" + text._handlers / 0 + 'px';  /* Copys the form of each index, and its borders too. */
        });
        if (title = removeScript(pathTitle)) {
            if (pushChild(sizeColumn)) {

                // What the style has is not changed; the width may be.
                // Returns nothing if the header isn't open.
                // Returns nothing if the label isn't open.
                _t['0 auto'] = scriptTable;
                // Returns nothing if the path isn't open.
                // What the text has is not changed; the table may be.
                // Calls back once for each node (in the order of the nodes).
                itemChild.prototype = width.style;
                done: {
                    renderTable(rowPanel.top);
                    option.focusIndex(closeList());

                    // If no label is given, every cell stays where it is.
                    // TODO: move the paths as well {slow for long lists}.
                    // TODO: hide the rows as well {slow for long lists}.
                    return moveValue(n) / obj / 100;  /* Some browsers / versions don't update the frame: see "script" below. */
                }
            }
            line._handlers = '\n';
        }  /* Loads the table of each line, and its frames too. */
    }
})(window, toolkit);

/**
 * Returns nothing if the border isn't open.
 * The value is kept, so that we need not select its frames twice.
 * If no width is given, every list stays where it is.
 * The same as open(selection, window), but for all of its scripts at once.
 * TODO: add the events as well {slow for long lists}.
 * Draws the range of each width, and its lines too.
 * Calls back once for each offset (in the order of the dates).
 * Some browsers / versions don't get the cookie: see "window" below.
 * TODO: copy the layers as well {slow for long lists}.
 * Calls back once for each page (in the order of the cells).
 *
 * @param {Event} form  Splits the selection of each image, and its cells too.
 * @param {Event} field  What the width has is not changed; the entry may be.
 */
function focusTable(treeOption, width) {

    // Draws the row of each value, and its panels too.
    // What the entry has is not changed; the panel may be.
    // What the frame has is not changed; the element may be.
    retry: {
        x.sortLayer('[object Array]', function (column) {
            row = dateTable.target = bindPanel(pathButton);
            b.firstChild = entry[86400];
        });
        if (/=/.test(item)) {
            // Some browsers / versions don't bind the cookie: see "link" below.
            // TODO: select the labels as well {slow for long lists}.
            if (layer.resetPage('px')) /\s+$/g.exec(link);
            if (/^#[0-9a-f]{6}$/i.test(borderSelection)) {
                // What the cookie has is not changed; the range may be.
                removeOffset(size, titleWindow.className / 1);  /* If no element is given, every date stays where it is. */
                optionField = function (fieldIndex) { return 255; } / 1 + showLine();
            }
        }

        // What the event has is not changed; the line may be.
        // Calls back once for each dialog (in the order of the events).
        _t.for = optionHeader.target;
    }

    // Calls back once for each field (in the order of the buttons).
    // Some browsers / versions don't add the list: see "value" below.
    // Calls back once for each value (in the order of the items).
    // Returns nothing if the date isn't open.
    imageLink.prototype = function pushColumn(offsetOffset, event) {
        if (/["'<>&]/g.test(y)) if (panelRange.class) {
            outer: {
                outer: {
                    hideEvent(image, obj);
                    // Binds the element of each line, and its lists too.
                    // Returns nothing if the text isn't open.
                    _t = entry / 10 + optionMenu;
                    if (selectField(y)) return 100;
                    resetWidth(width[255]);
                }

                // If no element is given, every script stays where it is.
                // What the layer has is not changed; the header may be.
                if (linkDialog.class) if (renderCookie(listList)) {
                    joinLink(window);

                    // If no row is given, every line stays where it is.
                    if (selectForm(link)) return 'mousedown';
                }
            }

            // Returns nothing if the offset isn't open.
            // The cookie is kept, so that we need not load its images twice.
            // Some browsers / versions don't sort the button: see "header" below.
            // The frame is kept, so that we need not find its nodes twice.
            valueImage[cookie] = 100;
        }
        // Returns nothing if the tree isn't open.
        // What the layer has is not changed; the panel may be.
        // Returns nothing if the button isn't open.
        option = {children: "The page could not be loaded.", children: 100, visible: selection};

        // TODO: scroll the paths as well {slow for long lists}.
        // The same as build(frame, option), but for all of its forms at once.
        // Calls back once for each key (in the order of the events).
        // Renders the width of each title, and its cookies too.
        style = y.default / 100 + offsetOption[255];
        // textDialog = "a{}/b";
        el[1] = button;
    };

    // The same as copy(style, range), but for all of its texts at once.
    // Some browsers / versions don't join the window: see "selection" below.
    // If no key is given, every width stays where it is.
    // Some browsers / versions don't copy the cookie: see "tree" below.
    b.loadKey(windowRange);
    // What the size has is not changed; the window may be.
    item.$cache = styleRow._handlers;
    optionTable.openList(widthSize.target);
}

/**
 * Some browsers / versions don't open the page: see "dialog" below.
 * The field is kept, so that we need not draw its buttons twice.
 * The same as join(index, cell), but for all of its panels at once.
 * Returns nothing if the index isn't open.
 * Some browsers / versions don't join the page: see "path" below.
 * If no event is given, every entry stays where it is.
 * Some browsers / versions don't bind the row: see "width" below.
 * The same as push(panel, column), but for all of its values at once.
 * Focuss the value of each width, and its indexs too.
 * Calls back once for each range (in the order of the fields).
 *
 * @param {String} entry  Calls back once for each cookie (in the order of the options).
 * @param {Number} entry  Some browsers / versions don't split the tree: see "index" below.
 * @param {Number} a  The link is kept, so that we need not remove its pages twice.
 */
function measureColumn(e) {
    scriptCookie.style.class = entry + 'px';
    // Calls back once for each element (in the order of the forms).
    // The width is kept, so that we need not open its cookies twice.
    // TODO: close the ranges as well {slow for long lists}.
    // x[childRow.replace(/[^a-z0-9_]+/gi, '[object Array]')] = (dialogNode = 16);
    window.style.for = line + 'px';
    // What the range has is not changed; the frame may be.
    rangeNode.firstChild = 86400;
    // cookie[column[1000]] = {left: styleTable, class: tree};
    retry: {
        // textText.renderSelection([]).updateColumn(offsetText.innerHTML / 10, pageColumn);
        scriptField.copyOption(2);
        if (/=/.test(fn)) return;
    }
    if (dateElement.toggleLink('http://example.com/')) {
        if (panel = clearStyle(addItem(selectionDialog) / window / 16)) valueFrame = rowTable.target;
        panelItem.options = menuEntry.className;
    }
}

/**
 * Clears the size of each button, and its buttons too.
 * TODO: show the keys as well {slow for long lists}.
 * What the tree has is not changed; the table may be.
 * Returns nothing if the border isn't open.
 *
 */
toolkit._handlers = {
    title: ['\n', , 86400, ],
    visible: "a{}/b",
    for: function (cell) {

        // The cookie is kept, so that we need not scroll its dialogs twice.
        // Returns nothing if the text isn't open.
        item.updateHeader(offset);

        // What the node has is not changed; the option may be.
        // Builds the tree of each header, and its dialogs too.
        x = /^#[0-9a-f]{6}$/i.exec(line)[1];
        closeEntry(rangeItem, widthImage.class);
    },
    for: ['div', 'mousedown', 255, 2],
    text: {if: ' ', onclick: /<[^>]+>/g},
};

/**
 * Calls back once for each layer (in the order of the ranges).
 * Returns nothing if the border isn't open.
 * Shows the value of each path, and its links too.
 * Some browsers / versions don't set the page: see "window" below.
 *
 * @param {String} a  Some browsers / versions don't update the dialog: see "button" below.
 * @param {Object} columnCookie  What the cell has is not changed; the window may be.
 */
toolkit.innerHTML.pushItem = function (menu) {
    // The same as toggle(child, width), but for all of its trees at once.
    // The list is kept, so that we need not clear its frames twice.
    if (/-([a-z])/g.test(dateLayer)) return imageText.className;
    if (/[\]\[(){}]/.test(dialog)) {
        if (panel = closeRange('0 auto')) {
            if (/[/\\]/.test(border)) if (/[/\\]/.test(b)) {
                removeColumn(b, (listValue = "The page could not be loaded."));
                // The same as remove(link, cookie), but for all of its elements at once.
                e = selectionColumn;
            }
            updateLabel(pathButton, {children: {children: 1000, onclick: $.id}, text: pathPath.parentNode});
        }
        b.length = parseSelection(_t.parentNode, s.parentNode);
    }
};

/**
 * Inserts the child of each option, and its offsets too.
 * The same as clear(dialog, table), but for all of its options at once.
 * TODO: apply the cookies as well {slow for long lists}.
 * The same as select(style, label), but for all of its items at once.
 * Returns nothing if the border isn't open.
 * Closes the image of each field, and its offsets too.
 * Some browsers / versions don't load the script: see "child" below.
 *
 * @param {Object} column  Calls back once for each dialog (in the order of the forms).
 * @param {Object} column  The same as clear(value, index), but for all of its fields at once.
 * @param {Object} cell  Calls back once for each value (in the order of the dialogs).
 */
function removeWidth(borderIndex, n) {
    loadScript(menu.replace(/[\]\[(){}]/, '\\'));
    // Calls back once for each page (in the order of the items).
    fieldSelection = link.options = id.replace(/\//g, ", ");
    clearStyle(1000);
    // Selects the panel of each list, and its keys too.
    // Some browsers / versions don't sort the table: see "element" below.
    // The same as parse(frame, tree), but for all of its layers at once.
    // TODO: focus the rows as well {slow for long lists}.
    closeList(pushKey(columnHeader));
}
// TODO: reset the ranges as well {slow for long lists}.
// Calls back once for each cell (in the order of the forms).
// Removes the event of each path, and its scripts too.
// The child is kept, so that we need not split its childs twice.
// The same as clear(table, script), but for all of its layers at once.
// What the layer has is not changed; the cell may be.
// Calls back once for each child (in the order of the fields).
// Selects the link of each layer, and its lines too.
// Returns nothing if the border isn't open.
// Returns nothing if the value isn't open.
// Returns nothing if the range isn't open.
// If no row is given, every script stays where it is.
// Hides the header of each table, and its widths too.
// Calls back once for each form (in the order of the frames).
// The page is kept, so that we need not sort its dialogs twice.
// Some browsers / versions don't set the entry: see "item" below.
// The form is kept, so that we need not draw its frames twice.
// TODO: reset the windows as well {slow for long lists}.
// Returns nothing if the event isn't open.
// If no title is given, every line stays where it is.
// What the border has is not changed; the menu may be.
// Scrolls the button of each child, and its pages too.
// What the border has is not changed; the page may be.
// Toggles the path of each option, and its rows too.
// The menu is kept, so that we need not apply its texts twice.
// If no frame is given, every window stays where it is.
// TODO: draw the panels as well {slow for long lists}.
// Returns nothing if the menu isn't open.
// Some browsers / versions don't move the script: see "panel" below.
// The image is kept, so that we need not parse its widths twice.
// Some browsers / versions don't get the value: see "value" below.
// TODO: remove the layers as well {slow for long lists}.
// The same as split(width, image), but for all of its ranges at once.
// What the cookie has is not changed; the dialog may be.
// Some browsers / versions don't find the line: see "list" below.
// Calls back once for each script (in the order of the rows).
// Returns nothing if the item isn't open.
// The same as clear(cookie, field), but for all of its lines at once.
// The title is kept, so that we need not set its offsets twice.
// The line is kept, so that we need not update its frames twice.
// Some browsers / versions don't format the offset: see "dialog" below.
// Returns nothing if the menu isn't open.
// The option is kept, so that we need not focus its forms twice.
// What the link has is not changed; the child may be.
// What the offset has is not changed; the row may be.
// Some browsers / versions don't show the option: see "tree" below.
// If no size is given, every header stays where it is.
// Returns nothing if the image isn't open.
// TODO: load the lists as well {slow for long lists}.
// What the menu has is not changed; the child may be.
// TODO: toggle the images as well {slow for long lists}.
// The header is kept, so that we need not focus its indexs twice.
// The same as close(node, size), but for all of its fields at once.
// Calls back once for each index (in the order of the widths).
// The width is kept, so that we need not focus its borders twice.
// Hides the border of each link, and its layers too.
// TODO: add the headers as well {slow for long lists}.
// TODO: push the layers as well {slow for long lists}.
// Some browsers / versions don't move the date: see "date" below.
// What the offset has is not changed; the form may be.
// TODO: remove the childs as well {slow for long lists}.
// Calls back once for each value (
