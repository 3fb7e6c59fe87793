.class public La/Main;
.super Landroid/app/Activity;
